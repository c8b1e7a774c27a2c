//! The two answers of one case, side by side (document 01, demand 2).

use crate::compare::number;
use crate::departures::{Asked, departure};
use crate::due::{RATES, due};

#[derive(Clone, Copy, Debug, PartialEq, Eq)]
pub enum Verdict {
    Same,
    /// Another answer than the Rust's is due, by the departure of this name, and the port gave it.
    Excluded(&'static str),
    Different,
}

/// Whether a bus that was opened has a rate that it may have, whatever the Rust gives it (document 02, request 13).
fn rate_allowed(port: &str) -> bool {
    let mut rates = port.lines().filter_map(|l| l.strip_prefix("rate "));
    number(port) != Some(0) || rates.all(|hz| hz.parse().is_ok_and(|hz| RATES.contains(&hz)))
}

/// The port must give the Rust's answer, or where an agreed departure is about the case the one that is due by it.
pub fn judge(line: &str, oracle: &str, port: &str) -> Verdict {
    let Some(refused) = due(line).filter(|_| !oracle.starts_with("error")) else {
        return Verdict::Different;
    };
    let departure = departure(Asked { line, refused }, oracle);
    let due = departure.as_ref().map_or(oracle, |(_, answer)| answer);
    match &departure {
        _ if port != due || !rate_allowed(port) => Verdict::Different,
        Some((name, _)) if port != oracle => Verdict::Excluded(name),
        _ => Verdict::Same,
    }
}

#[cfg(test)]
mod tests {
    use super::{Verdict::*, judge};

    #[test]
    fn verdicts() {
        let flush = "r 0008 00000000\nend 0 1 1 1 0\n";
        let changed = format!("{flush}changed\n");
        let refused = Excluded("the Rust panics or has no form, the port refuses");
        let left = Excluded("a mode leaves QPI, its word for 038 has bit 31 clear");
        let [kept, clear, other] = ["f0000000", "70000000", "30000000"]
            .map(|word| format!("r 0008 00000000\nr 0038 c0000000\nw 0038 {word}\nend 10 3 2 1 0\n"));
        let [kept, clear, other] = [&kept, &clear, &other].map(String::as_str);
        for (line, oracle, port, verdict) in [
            ("flush 1 9 1 0", flush, flush, Same),
            ("flush 1 9 1 0", flush, &changed, Different),
            ("flush 1 9 1 0", flush, "end 7 0 0 0 0\n", Different),
            ("flush 0 9 1 0", flush, "end 7 0 0 0 0\n", refused),
            ("flush 0 9 1 0", flush, flush, Different),
            ("flush 0 9 1 0", "end 7 0 0 0 0\n", "end 7 0 0 0 0\n", Same),
            ("flush 0 9 1 0", flush, "end 7 1 1 1 0\n", Different),
            ("flush 0 9 1 0", flush, "end 6 0 0 0 0\n", Different),
            ("sck 9 32 1 0", "sck 0 0\n", "sck 12 0\n", refused),
            ("sck 9 31 1 0", "sck 0 0\n", "sck 12 0\n", Different),
            ("flash 1 1", "error x\n", "error x\n", Different),
            ("mode 1 6 1 4 0", kept, clear, left),
            ("mode 1 6 1 4 0", kept, kept, Different),
            ("mode 1 6 1 4 0", kept, other, Different),
            ("mode 1 6 1 4 0", clear, clear, Same),
            ("mode 1 6 1 6 0", kept, kept, Same),
            ("mode 1 6 1 6 0", kept, clear, Different),
        ] {
            assert_eq!(judge(line, oracle, port), verdict, "{line}: {port}");
        }
    }

    /// A phase of one byte after a delay of 3 ns and before one of 10; at 1.5 GHz they are 5 and 15 cycles.
    #[test]
    fn delays() {
        let answer = |[first, phase, last, op]: [&str; 4]| {
            let [first, phase, last] = [first, phase, last].map(|n| format!("d 0000 {n:0>8}\n"));
            format!("{first}r 0018 00000000\nw 0018 80008000\n{phase}{op} 0008 00000000\n{last}end 0 6 2 1 0\n")
        };
        let rust = answer(["1", "a", "5", "r"]);
        let excluded = Excluded("a delay outside a sheet, its cycles are by the core rate");
        let records = "24 5 3 0 0 0 0 0 2 1 0 1 0 0 0 0 3 5 10 0 0 0 0 0 0 1 0 0";
        for (core_hz, port, verdict) in [
            (1_500_000_000, ["5", "a", "f", "r"], excluded),
            (1_500_000_000, ["1", "a", "5", "r"], Different),
            (1_500_000_000, ["4", "a", "f", "r"], Different),
            (1_500_000_000, ["5", "a", "10", "r"], Different),
            (1_500_000_000, ["5", "f", "f", "r"], Different),
            (1_500_000_000, ["5", "a", "f", "w"], Different),
            (500_000_000, ["2", "a", "5", "r"], excluded),
            (500_000_000, ["1", "a", "5", "r"], Different),
            (333_333_333, ["1", "a", "4", "r"], excluded),
            (333_333_333, ["1", "a", "5", "r"], Different),
        ] {
            let line = format!("transaction 1 9 {core_hz} {records}");
            assert_eq!(judge(&line, &rust, &answer(port)), verdict, "{line}: {port:?}");
        }
        let even = "transaction 1 9 500000000 8 5 6 0 0 0 0 0 0 0 0 0";
        let [three, two] = ["3", "2"].map(|n| format!("d 0000 0000000{n}\nend 0 1 0 0 0\n"));
        assert_eq!([&three, &two].map(|port| judge(even, &three, port)), [Same, Different]);
    }

    /// A sheet's delay of 3 ns is one cycle, as the Rust's.
    #[test]
    fn delays_of_a_sheet() {
        let words = [1, 0, 0, 1, 0, 5, 3, 0, 0, 0, 0, 0, 0u32];
        let bytes: Vec<String> = words.iter().flat_map(|w| w.to_le_bytes()).map(|b| b.to_string()).collect();
        let [one, two] = ["1", "2"].map(|n| format!("d 0000 0000000{n}\nend 0 1 0 0 0\n"));
        for name in ["sheet", "print"] {
            let line = format!("{name} 52 52 {}", bytes.join(" "));
            assert_eq!([&one, &two].map(|port| judge(&line, &one, port)), [Same, Different]);
        }
    }

    /// The Rust opens and delays as ever.
    #[test]
    fn refused_by_14() {
        let refused = Excluded("a core rate of 0, or a delay of too many cycles, the port refuses");
        let before = Excluded("the Rust panics or has no form, the port refuses");
        let open = |mode, core_hz, limit| format!("open 0 {mode} 1 0 0 0 0 0 0 0 1 1 1 {core_hz} 1 {limit} 0 0");
        let delay = |ns, core_hz| format!("transaction 1 2 {core_hz} 8 5 {ns} 0 0 0 0 0 0 0 0 0");
        let opened = "end 0 1 1 0 0\nrate 5\n";
        let delayed = "d 0000 7fffffff\nend 0 1 0 0 0\n";
        for (line, oracle, port, verdict) in [
            (open(0, 0, 1), opened, "end 14 0 0 0 0\nrate 0\n", refused),
            (open(0, 0, 0), opened, "end 14 0 0 0 0\nrate 0\n", refused),
            (open(0, 0, 0), opened, "end 7 0 0 0 0\nrate 0\n", Different),
            (open(0, 0, 1), opened, "end 14 0 0 0 0\nrate 5\n", Different),
            (open(0, 0, 1), opened, opened, Different),
            (open(0, 1, 1), opened, opened, Same),
            (open(0, 1, 1), opened, "end 14 0 0 0 0\nrate 0\n", Different),
            (open(1, 0, 1), "panic\n", "end 3 0 0 0 0\nrate 0\n", before),
            (open(1, 0, 1), "panic\n", "end 14 0 0 0 0\nrate 0\n", Different),
            (delay(u32::MAX, 1_000_000_001), delayed, "end 14 0 0 0 0\n", refused),
            (delay(u32::MAX, 1_000_000_001), delayed, delayed, Different),
            (delay(u32::MAX, 1_000_000_001), delayed, "end 14 1 0 0 0\n", Different),
            (delay(u32::MAX, 1_000_000_000), delayed, "end 14 0 0 0 0\n", Different),
        ] {
            assert_eq!(judge(&line, oracle, port), verdict, "{line}: {port}");
        }
    }

    /// At the PLLs next to the bounds; the Rust opens at each.
    #[test]
    fn refused_by_23() {
        let refused = Excluded("an opening without an eligible module clock, the port refuses");
        let before = Excluded("a core rate of 0, or a delay of too many cycles, the port refuses");
        let other = Excluded("the Rust panics or has no form, the port refuses");
        let open = |work, pll: u32, [core_hz, qpi, limit]: [u32; 3]| {
            format!("open 0 0 1 {work} 0 0 0 0 0 0 1 {pll} 1 {core_hz} {qpi} {limit} 0 0")
        };
        let opened = "end 0 1 1 0 0\nrate 5\n";
        let [by_5, by_7, by_14, by_23] = [5, 7, 14, 23].map(|n| format!("end {n} 0 0 0 0\nrate 0\n"));
        for (line, port, verdict) in [
            (open(0, 0, [1, 1, 1]), by_23.as_str(), refused),
            (open(0, 3_200_000_032, [1, 1, 1]), &by_23, refused),
            (open(0, u32::MAX, [1, 1, 1]), &by_23, refused),
            (open(0, 0, [1, 1, 1]), opened, Different),
            (open(0, 3_200_000_032, [1, 1, 1]), opened, Different),
            (open(0, 0, [1, 1, 1]), "end 23 0 0 0 0\nrate 5\n", Different),
            (open(0, 1, [1, 1, 1]), opened, Same),
            (open(0, 3_200_000_031, [1, 1, 1]), opened, Same),
            (open(0, 1, [1, 1, 1]), &by_23, Different),
            (open(0, 3_200_000_031, [1, 1, 1]), &by_23, Different),
            (open(0, 0, [1, 1, 0]), &by_23, refused),
            (open(0, 0, [1, 1, 0]), &by_7, Different),
            (open(0, 1, [1, 1, 0]), &by_7, other),
            (open(0, 0, [0, 1, 0]), &by_14, before),
            (open(0, 0, [0, 1, 0]), &by_23, Different),
            (open(6, 0, [1, 0, 0]), &by_5, other),
            (open(6, 0, [1, 0, 0]), &by_23, Different),
        ] {
            assert_eq!(judge(&line, opened, port), verdict, "{line}: {port}");
        }
    }

    /// Both sides give the same rate. One that no opened bus may have is a difference, unless the bus was not opened.
    #[test]
    fn rates_of_an_opening() {
        let line = "open 0 0 1 0 0 0 0 0 0 0 1 1 1 1 1 1 0 0";
        for (number, rate, verdict) in [
            (0, "0", Different),
            (0, "1", Same),
            (0, "100000000", Same),
            (0, "100000001", Different),
            (0, "3200000032", Different),
            (0, "x", Different),
            (10, "0", Same),
        ] {
            let answer = format!("end {number} 1 1 0 0\nrate {rate}\n");
            assert_eq!(judge(line, &answer, &answer), verdict, "{answer}");
        }
    }
}
