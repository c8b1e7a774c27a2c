//! The log that a call writes: two words an entry, first op × 65,536 + place, then the value.

use crate::ended::Ended;
use std::fmt;
use std::slice::ChunksExact;

/// The place of instance 0's module clock register; that of another is as much higher as its number.
pub const MODULE_CLOCK: u16 = 0x1000;

/// What an entry is.
#[derive(Clone, Copy, Debug, PartialEq, Eq, Hash)]
pub enum Op {
    /// 1: a register read.
    Read,
    /// 2: a register write.
    Write,
    /// 3: a byte written.
    ByteWritten,
    /// 4: a byte got.
    ByteGot,
    /// 5: a delay.
    Delay,
    /// Any other: no call enters one.
    Unknown(u16),
}

impl Op {
    /// The letter by which a sheet prints it.
    pub fn letter(self) -> char {
        match self {
            Op::Read => 'r',
            Op::Write => 'w',
            Op::ByteWritten => 'b',
            Op::ByteGot => 'g',
            Op::Delay => 'd',
            Op::Unknown(_) => '?',
        }
    }
}

impl From<u16> for Op {
    fn from(op: u16) -> Self {
        match op {
            1 => Op::Read,
            2 => Op::Write,
            3 => Op::ByteWritten,
            4 => Op::ByteGot,
            5 => Op::Delay,
            other => Op::Unknown(other),
        }
    }
}

/// One entry of a log. It is shown as a sheet prints it.
#[derive(Clone, Copy, Debug, PartialEq, Eq, Hash)]
pub struct Entry {
    /// What it is.
    pub op: Op,
    /// The register's offset, [`MODULE_CLOCK`] and the instance, or 0 for a delay.
    pub place: u16,
    /// The word or byte, or a delay's cycles.
    pub value: u32,
}

impl From<[u32; 2]> for Entry {
    fn from([first, value]: [u32; 2]) -> Self {
        Entry { op: Op::from((first >> 16) as u16), place: (first & 0xFFFF) as u16, value }
    }
}

impl fmt::Display for Entry {
    fn fmt(&self, f: &mut fmt::Formatter) -> fmt::Result {
        let letter = self.op.letter();
        write!(f, "{letter} {:04x} {:08x}", self.place, self.value)
    }
}

/// The entries that a call made, first to last.
#[derive(Clone, Debug)]
pub struct Entries<'a>(ChunksExact<'a, u32>);

impl Iterator for Entries<'_> {
    type Item = Entry;

    fn next(&mut self) -> Option<Entry> {
        self.0.next().map(|words| Entry::from([words[0], words[1]]))
    }

    fn size_hint(&self) -> (usize, Option<usize>) {
        self.0.size_hint()
    }
}

impl ExactSizeIterator for Entries<'_> {}

impl Ended {
    /// Splits the log that was lent to the call: the words of its entries, and those that it left alone.
    pub fn split<'a>(&self, log: &'a [u32]) -> (&'a [u32], &'a [u32]) {
        log.split_at(self.counts.entries.saturating_mul(2).min(log.len() as u64) as usize)
    }

    /// The entries that the call made in the log that was lent to it.
    pub fn log<'a>(&self, log: &'a [u32]) -> Entries<'a> {
        Entries(self.split(log).0.chunks_exact(2))
    }
}

#[cfg(test)]
mod tests {
    use super::*;
    use crate::{Counts, Number};

    #[test]
    fn entries_are_taken_apart() {
        let entry = Entry::from([0x0002_1003, 0x3100]);
        assert_eq!(entry, Entry { op: Op::Write, place: 0x1003, value: 0x3100 });
        assert_eq!(entry.to_string(), "w 1003 00003100");
        assert_eq!(Entry::from([0, 0]).to_string(), "? 0000 00000000");
        let letters: String = (1..7).map(|op| Op::from(op).letter()).collect();
        assert_eq!(letters, "rwbgd?");
    }

    #[test]
    fn no_more_entries_than_the_log_has() {
        let ended = |entries| Ended { number: Number::Done, counts: Counts { entries, ..Counts::default() } };
        let log = [0x1_0008, 1, 0x1_0008, 2, 7];
        assert_eq!(ended(0).log(&log).count(), 0);
        assert_eq!(ended(2).log(&log).len(), 2);
        assert_eq!(ended(2).split(&log).1, [7]);
        assert_eq!(ended(u64::MAX).log(&log).count(), 2);
    }
}
