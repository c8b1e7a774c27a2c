//! Which refusal documents 01 and 02 ask for, read off the case line alone.

use crate::delays::{Delay, MOST};
use crate::numbers::{Numbers, numbers};
use std::ops::RangeInclusive;

/// A core rate of 0 at an opening, or a delay of too many cycles (document 02, request 2).
pub const CORE_RATE: u32 = 14;
/// No module clock is eligible at an opening (document 02, request 13).
pub const NO_CLOCK: u32 = 23;
/// The rates of an eligible module clock, and by request 13 of an opened bus, in Hz.
pub const RATES: RangeInclusive<u64> = 1..=100_000_000;

/// What the records of a chain go by.
#[derive(Clone, Copy)]
pub enum Rules {
    Sheet,
    /// A transaction's, with the core rate.
    Transaction(u64),
}

impl Rules {
    fn highest(self) -> u64 {
        if let Rules::Sheet = self { 9 } else { 5 }
    }

    /// Whether a record is a delay of more cycles than there can be. In a sheet none is.
    fn too_many(self, r: &[u64]) -> bool {
        matches!(self, Rules::Transaction(core_hz) if r[0] == 5 && Delay { ns: r[1], core_hz }.cycles() > MOST)
    }
}

pub fn some(f: &mut Numbers, count: u64) -> Option<Vec<u64>> {
    (0..count).map(|_| f.next()).collect()
}

/// The length of a buffer; its bytes are passed over.
pub fn buffer(f: &mut Numbers) -> Option<u64> {
    let (length, given) = (f.next()?, f.next()?);
    some(f, given).map(|_| length)
}

/// A buffer's bytes.
pub fn bytes(f: &mut Numbers) -> Option<Vec<u64>> {
    let (length, given) = (f.next()?, f.next()?);
    let mut bytes = some(f, given)?;
    bytes.resize(length as usize, 0);
    Some(bytes)
}

/// The number of the refusal that is due, or 0. Nothing where the line cannot be read.
pub fn due(line: &str) -> Option<u32> {
    let (name, mut numbers) = numbers(line)?;
    let f = &mut numbers;
    match name {
        "open" => some(f, 16).map(|f| open(&f)),
        "sck" => some(f, 4).map(|f| if f[1] > 31 || (f[2] == 1 && f[3] > 15) { 12 } else { 0 }),
        "free" | "clock" | "dummy" => Some(0),
        "sheet" | "print" => bytes(f).map(|b| sheet(&b)),
        _ if some(f, 2)?[0] == 0 => Some(7),
        _ => on_a_bus(name, f),
    }
}

/// The whole answer of a call that refuses: counts of 0, no entry, no byte, rate 0.
pub fn refusal(line: &str, number: u32) -> String {
    match line.split_whitespace().next() {
        Some("sck") => format!("sck {number} 0\n"),
        Some("open") => format!("end {number} 0 0 0 0\nrate 0\n"),
        _ => format!("end {number} 0 0 0 0\n"),
    }
}

/// Whether the PLL divided by some m + 1, for m from 0 to 31, is an eligible module clock.
fn has_clock(pll: u64) -> bool {
    (0..=31).any(|m| RATES.contains(&(pll / (m + 1))))
}

fn open(f: &[u64]) -> u32 {
    let [instance, mode, work, pll, core_hz, qpi, limit] = [0, 1, 3, 11, 13, 14, 15].map(|i| f[i]);
    let rules = [
        (mode == 1 || mode == 3, 3),
        (instance > 3, 4),
        (work == 6 && qpi == 0, 5),
        (core_hz == 0, CORE_RATE),
        (!has_clock(pll), NO_CLOCK),
        (limit == 0, 7),
    ];
    rules.iter().find(|rule| rule.0).map_or(0, |rule| rule.1)
}

/// 6 where one of the phases is too long.
fn phases(lengths: &[u64]) -> u32 {
    if lengths.iter().any(|&n| n > 0xFF_FFFF) { 6 } else { 0 }
}

fn on_a_bus(name: &str, f: &mut Numbers) -> Option<u32> {
    Some(match name {
        "write" | "read" => phases(&[buffer(f)?]),
        "transfer" | "quadwrite" => phases(&[buffer(f)?, buffer(f)?]),
        "inplace" | "flush" | "mode" => 0,
        "quadread" => {
            let _ = (f.next()?, buffer(f)?, some(f, 2)?);
            phases(&[buffer(f)?])
        }
        "transaction" => {
            let (core_hz, count) = (f.next()?, f.next()?);
            let words = some(f, count)?;
            chain(&words, Rules::Transaction(core_hz), buffer(f)?)
        }
        _ => return None,
    })
}

/// A word of a sheet; 0 past its bytes.
pub fn sheet_word(bytes: &[u64], i: usize) -> u64 {
    let word = bytes.get(4 * i..4 * i + 4).unwrap_or_default();
    word.iter().rev().fold(0, |word, byte| 256 * word + byte)
}

/// 13 comes before 7, and 7 before what the chain is refused by.
fn sheet(bytes: &[u64]) -> u32 {
    let length = bytes.len() as u64;
    if !(20..=65_536).contains(&length) {
        return 13;
    }
    let word = |i| sheet_word(bytes, i);
    let [limit, qpi, records, answers] = [0, 2, 3, 4].map(word);
    let needed = 20 + 32 * records + 4 * answers;
    if qpi > 1 || needed > length {
        return 13;
    }
    if limit == 0 {
        return 7;
    }
    let words: Vec<u64> = (5..5 + 8 * records as usize).map(word).collect();
    chain(&words, Rules::Sheet, length - needed)
}

/// The first refusal along a chain.
pub fn chain(words: &[u64], rules: Rules, memory: u64) -> u32 {
    if !words.len().is_multiple_of(8) {
        return 8;
    }
    let records: Vec<&[u64]> = words.chunks(8).collect();
    let mut at = records.len().min(1);
    let mut number = 0;
    while at != 0 && number == 0 {
        let r = records[at - 1];
        let next = r[7] as usize;
        let leads = next == 0 || (next > at && next <= records.len());
        let known = leads && (1..=rules.highest()).contains(&r[0]);
        number = if known { record(r, rules, memory) } else { 8 };
        at = next;
    }
    number
}

/// The refusal of one record's fields: 8, then 14, then 9, then 6. A transfer in place is sent by parts and the command
/// of a quad read is cut, so their lengths are not refused.
fn record(r: &[u64], rules: Rules, memory: u64) -> u32 {
    let kind = r[0];
    let (windows, lengths): (&[usize], &[usize]) = match kind {
        1 | 2 => (&[1], &[2]),
        3 => (&[1, 3], &[2, 4]),
        4 => (&[1], &[]),
        8 => (&[1, 5], &[6]),
        9 => (&[1, 5], &[2, 6]),
        _ => (&[], &[]),
    };
    if (kind == 7 && r[1] > 6) || (kind == 8 && r[4] > 255) {
        8
    } else if rules.too_many(r) {
        CORE_RATE
    } else if windows.iter().any(|&at| r[at] + r[at + 1] > memory) {
        9
    } else {
        lengths.iter().map(|&at| phases(&[r[at]])).max().unwrap_or(0)
    }
}

#[cfg(test)]
mod tests {
    use super::{due, has_clock};

    #[test]
    fn calls() {
        for (line, number) in [
            ("open 9 3 1 6 0 0 0 0 0 0 1 0 1 0 0 0 9 0", 3),
            ("open 4 2 1 6 0 0 0 0 0 0 1 0 1 0 0 0 9 0", 4),
            ("open 3 0 1 6 0 0 0 0 0 0 1 0 1 0 0 0 9 0", 5),
            ("open 3 0 1 6 0 0 0 0 0 0 1 0 1 0 1 0 9 0", 14),
            ("open 3 0 1 6 0 0 0 0 0 0 1 0 1 1 1 0 9 0", 23),
            ("open 3 0 1 6 0 0 0 0 0 0 1 1 1 1 1 0 9 0", 7),
            ("open 3 0 1 5 0 0 0 0 0 0 1 1 1 0 0 1 9 0", 14),
            ("open 3 0 1 5 0 0 0 0 0 0 1 0 1 1 0 1 9 0", 23),
            ("open 3 0 1 5 0 0 0 0 0 0 1 3200000032 1 1 0 1 9 0", 23),
            ("open 3 0 1 5 0 0 0 0 0 0 0 3200000031 0 1 0 1 9 0", 0),
            ("open 3 0 1 5 0 0 0 0 0 0 1 1 1 1 0 1 9 0", 0),
            ("write 0 0 0x1000000 0 0", 7),
            ("write 1 0 0x1000000 0 0", 6),
            ("read 1 0 0xFFFFFF 1 3 0", 0),
            ("inplace 1 0 0x1000000 0 0", 0),
            ("transfer 1 0 1 1 7 0x1000000 0 0", 6),
            ("quadread 1 0 5 0x1000000 0 3 3 4 0 0", 0),
            ("quadread 1 0 5 2 1 9 3 3 0x1000000 0 0", 6),
            ("quadwrite 1 0 0x1000000 0 1 0 0", 6),
            ("sck 5 31 1 15", 0),
            ("sck 5 32 2 0", 12),
            ("sck 5 0 1 16", 12),
            ("transaction 0 0 2000000000 8 5 4294967295 0 0 0 0 0 0 4 0 0", 7),
            ("transaction 1 0 2000000000 8 5 4294967295 0 0 0 0 0 0 4 0 0", 14),
            ("transaction 1 0 2000000000 9 5 4294967295 0 0 0 0 0 0 9 4 0 0", 8),
            ("transaction 1 0 0 1 9 4 0 0", 8),
            ("transaction 1 0 0 0 4 0 0", 0),
        ] {
            assert_eq!(due(line), Some(number), "{line}");
        }
    }

    /// By the request none is eligible at a PLL of 0, and from 3,200,000,032 on. The least m with an eligible clock
    /// grows just above each multiple of 100,000,000.
    #[test]
    fn clocks() {
        for multiple in (0..=4_200_000_000).step_by(100_000_000) {
            for pll in multiple..multiple + 50 {
                assert_eq!(has_clock(pll), pll != 0 && pll < 3_200_000_032, "{pll}");
            }
        }
        assert!(!has_clock(u32::MAX.into()));
    }

    /// Chains of two records on a long memory: the first given, the second of an unknown kind.
    #[test]
    fn records() {
        for (record, number) in [
            ("4 0 0x1000000 0 0 9 9 0", 0),
            ("4 0 0x1000000 0 0 9 9 2", 8),
            ("1 0 0x1000000 0 0 9 9 2", 6),
            ("1 0 0x1000000 0 0 9 9 3", 8),
            ("2 0xFFFFFFFF 0xFFFFFFFF 0 0 9 9 1", 8),
            ("2 0xFFFFFFFF 0xFFFFFFFF 0 0 9 9 0", 9),
            ("3 0 0x1000000 0x1FFFFFF 2 9 9 0", 9),
            ("5 0xFFFFFFFF 9 9 9 9 9 0", 0),
        ] {
            let line = format!("transaction 1 0 1000000000 16 {record} 0 0 0 0 0 0 0 0 0x2000000 0 0");
            assert_eq!(due(&line), Some(number), "{line}");
        }
    }

    /// Chains of two records at two core rates: at the second a delay of 4294967291 ns has one cycle too many. It comes
    /// behind its own 8 and before what a later record is refused by.
    #[test]
    fn delays() {
        let late = "5 4294967291 9 9 9 9 9";
        for (first, second, numbers) in [
            (format!("{late} 0"), "5 0 9 9 9 9 9 0", [0, 14]),
            (format!("{late} 2"), "5 4294967290 9 9 9 9 9 0", [0, 14]),
            (format!("{late} 1"), "5 0 9 9 9 9 9 0", [8, 8]),
            (format!("{late} 3"), "5 0 9 9 9 9 9 0", [8, 8]),
            (format!("{late} 2"), "6 0 0 0 0 0 0 0", [8, 14]),
            (format!("{late} 2"), "1 0x1FFFFFF 2 9 9 9 9 0", [9, 14]),
            (format!("{late} 2"), "1 0 0x1000000 9 9 9 9 0", [6, 14]),
            ("6 0 0 0 0 0 0 2".into(), "5 4294967291 9 9 9 9 9 0", [8, 8]),
            ("1 0x1FFFFFF 2 9 9 9 9 2".into(), "5 4294967291 9 9 9 9 9 0", [9, 9]),
            ("1 0 0x1000000 9 9 9 9 2".into(), "5 4294967291 9 9 9 9 9 0", [6, 6]),
            ("4 0 2 9 9 9 9 2".into(), "5 4294967291 9 9 9 9 9 0", [0, 14]),
            ("4 0 2 9 9 9 9 0".into(), "5 4294967291 9 9 9 9 9 0", [0, 0]),
            ("5 4294967290 9 9 9 9 9 2".into(), "4 4294967291 0 9 9 9 9 0", [9, 9]),
        ] {
            let line = |core_hz| format!("transaction 1 0 {core_hz} 16 {first} {second} 0x2000000 0 0");
            let lines = [1_000_000_000, 1_000_000_001].map(line);
            assert_eq!([0, 1].map(|i| due(&lines[i])), numbers.map(Some), "{}", lines[1]);
        }
    }

    fn sheet(header: [u32; 5], records: &[[u32; 8]], more: usize) -> String {
        let words = header.iter().chain(records.iter().flatten());
        let bytes: Vec<u8> = words.flat_map(|w| w.to_le_bytes()).collect();
        let text: Vec<String> = bytes.iter().map(u8::to_string).collect();
        format!("sheet {} {} {}", bytes.len() + more, bytes.len(), text.join(" "))
    }

    #[test]
    fn headers() {
        for (header, more, number) in [
            ([1, 0, 0, 0, 0], 0, 0),
            ([0, 0, 1, 0, 0], 65_516, 7),
            ([0, 0, 1, 0, 0], 65_517, 13),
            ([0, 0, 2, 0, 0], 0, 13),
            ([0, 0, 0, 1, 1], 35, 13),
            ([1, 0, 0, 1, 1], 36, 8),
            ([1, 0, 0, 0x0800_0000, 0], 99, 13),
            ([1, 0, 0, 0, 0x4000_0000], 99, 13),
            ([1, 0, 0, 0x0400_0000, 0x2000_0000], 99, 13),
            ([1, 0, 0, u32::MAX, u32::MAX], 99, 13),
        ] {
            assert_eq!(due(&sheet(header, &[], more)), Some(number), "{header:x?}");
        }
        assert_eq!((due("print 0 0"), due("print 19 2 1 1")), (Some(13), Some(13)));
    }

    /// One record on a memory of three bytes.
    #[test]
    fn kinds_of_a_sheet() {
        const ALL: u32 = u32::MAX;
        for (record, number) in [
            ([1, 1, 2, ALL, ALL, ALL, ALL, 0], 0),
            ([1, 2, 2, ALL, ALL, ALL, ALL, 0], 9),
            ([4, 4, 0, ALL, ALL, ALL, ALL, 0], 9),
            ([5, ALL, ALL, ALL, ALL, ALL, ALL, 0], 0),
            ([6, ALL, ALL, ALL, ALL, ALL, ALL, 0], 0),
            ([6, 0, 0, 0, 0, 0, 0, 1], 8),
            ([7, 6, ALL, ALL, ALL, ALL, ALL, 0], 0),
            ([7, 7, ALL, ALL, ALL, ALL, ALL, 0], 8),
            ([8, 0, 3, ALL, 255, 3, 0, 0], 0),
            ([8, 0, 4, ALL, 256, 3, 0, 0], 8),
            ([8, 0, 4, ALL, 255, 3, 0, 0], 9),
            ([8, 0, 3, ALL, 255, 3, 1, 0], 9),
            ([9, 0, 3, ALL, ALL, 2, 1, 0], 0),
            ([9, ALL, 1, ALL, ALL, 2, 1, 0], 9),
            ([9, 0, 3, ALL, ALL, 2, 2, 0], 9),
            ([10, 0, 0, 0, 0, 0, 0, 0], 8),
            ([0, 0, 0, 0, 0, 0, 0, 0], 8),
        ] {
            assert_eq!(due(&sheet([1, 0, 0, 1, 0], &[record], 3)), Some(number), "{record:x?}");
        }
    }

    /// A transaction has no flush, and a sheet goes on to its second record.
    #[test]
    fn which_kinds() {
        assert_eq!(due("transaction 1 0 1 8 6 0 0 0 0 0 0 0 0 0 0"), Some(8));
        let (flush, unknown) = ([6, 0, 0, 0, 0, 0, 0, 2], [10, 0, 0, 0, 0, 0, 0, 0]);
        assert_eq!(due(&sheet([1, 0, 0, 2, 0], &[flush, unknown], 0)), Some(8));
        assert_eq!(due(&sheet([1, 0, 0, 2, 0], &[flush, flush], 0)), Some(8));
    }
}
