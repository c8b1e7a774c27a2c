//! Delays by the core rate (document 02, request 2): the delay records of a transaction, read off the line, the cycles
//! of each, and the answer that is due.

use crate::due::some;
use crate::numbers::{Numbers, numbers};
use std::iter::once;

/// The most cycles of a delay.
pub const MOST: u128 = u32::MAX as u128;

/// A delay record, and the core rate that it runs at.
#[derive(Clone, Copy, Debug, PartialEq)]
pub struct Delay {
    pub ns: u64,
    pub core_hz: u64,
}

impl Delay {
    /// The nanoseconds times the core rate by 10^9, rounded up.
    pub fn cycles(self) -> u128 {
        (u128::from(self.ns) * u128::from(self.core_hz)).div_ceil(1_000_000_000)
    }
}

/// The delay records on a transaction's chain, in their order; no other call has any.
pub fn delays(line: &str) -> Vec<Delay> {
    let Some(("transaction", mut numbers)) = numbers(line) else { return Vec::new() };
    of_transaction(&mut numbers).unwrap_or_default()
}

fn of_transaction(f: &mut Numbers) -> Option<Vec<Delay>> {
    let [_limit, _log, core_hz, count] = some(f, 4)?.try_into().ok()?;
    let all = of_chain(&some(f, count)?).into_iter();
    Some(all.map(|ns| Delay { ns, core_hz }).collect())
}

/// The nanoseconds of each.
fn of_chain(words: &[u64]) -> Vec<u64> {
    let records: Vec<&[u64]> = words.chunks_exact(8).collect();
    let mut found = Vec::new();
    let (mut at, mut next) = (0, records.len().min(1));
    while next > at && next <= records.len() {
        at = next;
        let r = records[at - 1];
        found.extend((r[0] == 5).then_some(r[1]));
        next = r[7] as usize;
    }
    found
}

/// The Rust's answer with these cycles as the values of its delay records. A delay is a phase's where it is directly
/// behind a word written to 018, else a record's.
pub fn delayed(oracle: &str, mut cycles: impl Iterator<Item = u128>) -> String {
    let before = once("").chain(oracle.lines());
    let due = |(before, line): (&str, &str)| {
        let of_record = line.starts_with("d 0000 ") && !before.starts_with("w 0018 ");
        let due = if of_record { cycles.next() } else { None };
        due.map_or_else(|| format!("{line}\n"), |n| format!("d 0000 {n:08x}\n"))
    };
    before.zip(oracle.lines()).map(due).collect()
}

#[cfg(test)]
mod tests {
    use super::{Delay, MOST, delayed, delays};

    /// Exact, just above and just below a whole number of cycles, at both ends of 32 bits.
    #[test]
    fn rounded_up() {
        const MAX: u64 = u32::MAX as u64;
        for (ns, core_hz, due) in [
            (0, MAX, 0),
            (MAX, 0, 0),
            (1, 1, 1),
            (1_000_000_000, 1, 1),
            (1_000_000_001, 1, 2),
            (MAX, 2, 9),
            (1, 1_500_000_000, 2),
            (2, 1_500_000_000, 3),
            (MAX, 999_999_999, MOST - 4),
            (MAX, 1_000_000_000, MOST),
            (MAX - 5, 1_000_000_001, MOST),
            (MAX - 4, 1_000_000_001, MOST + 1),
            (1_000_000_000, MAX, MOST),
            (1_000_000_001, MAX, MOST + 5),
            (MAX, MAX, 18_446_744_066),
        ] {
            assert_eq!(Delay { ns, core_hz }.cycles(), due, "{ns} ns at {core_hz}");
        }
    }

    /// Of three delays the second is not on the chain.
    #[test]
    fn along_the_chain() {
        let records = "32 5 3 9 9 9 9 9 2 1 0 0 9 9 9 9 4 5 8 9 9 9 9 9 4 5 7 9 9 9 9 9 0";
        let found = delays(&format!("transaction 1 9 0x1F4 {records} 0 0 0"));
        assert_eq!(found, [3, 7].map(|ns| Delay { ns, core_hz: 500 }));
        for line in ["transaction 1 9 500000000 0 0 0 0", "flush 1 9 0", "sheet 20 1 1", "transaction 1 9 5 8 5 3", ""]
        {
            assert!(delays(line).is_empty(), "{line}");
        }
    }

    /// A phase's delay keeps its value, whatever that is; so does one that no record stands for.
    #[test]
    fn only_the_values_of_records() {
        let oracle = "d 0000 00000001\nr 0018 00000000\nw 0018 80008000\nd 0000 0000000a\nr 0030 00000005\n\
                      r 0008 00000000\nd 0000 0000000a\nd 0000 00000003\nend 0 8 3 0 0\n";
        let due = "d 0000 00000002\nr 0018 00000000\nw 0018 80008000\nd 0000 0000000a\nr 0030 00000005\n\
                   r 0008 00000000\nd 0000 ffffffff\nd 0000 00000003\nend 0 8 3 0 0\n";
        assert_eq!(delayed(oracle, [2, MOST].into_iter()), due);
        assert_eq!(delayed(oracle, [].into_iter()), oracle);
    }
}
