//! A sheet and its bytes.

use crate::chain::{SheetOperation, nexts};

/// The longest sheet, in bytes; a longer one is refused by 13.
pub const SHEET_BYTES: usize = 65_536;

/// The log that the sheet program lends, in words: 4,096 entries.
pub const SHEET_LOG_WORDS: usize = 8_192;

/// A sheet. Its [`bytes`](Sheet::bytes) are what [`sheet`](crate::sheet()) runs and what the sheet program reads.
#[derive(Clone, Copy, Debug, PartialEq, Eq, Hash)]
pub struct Sheet<'a> {
    /// The limit of unready polls in one wait.
    pub limit: u32,
    /// The rate of the bus in Hz, for the dummies of a quad read. A sheet opens no bus, and takes any.
    pub rate: u32,
    /// The chip has QPI.
    pub qpi: bool,
    /// What its records ask for, one after the other.
    pub operations: &'a [SheetOperation],
    /// What the register reads, and the bytes got, are answered.
    pub answers: &'a [u32],
    /// What the records' windows lie in.
    pub memory: &'a [u8],
}

impl Sheet<'_> {
    /// Little-endian words limit, rate, QPI, record count, answer count; the records; the answers; then the memory.
    pub fn bytes(&self) -> Vec<u8> {
        let (records, answers) = (self.operations.len(), self.answers.len());
        let mut words = vec![self.limit, self.rate, self.qpi.into()];
        words.extend([records as u32, answers as u32]);
        let chained = self.operations.iter().zip(nexts(records));
        words.extend(chained.flat_map(|(o, next)| o.record(next)));
        words.extend(self.answers);
        let mut bytes: Vec<u8> = words.iter().flat_map(|w| w.to_le_bytes()).collect();
        bytes.extend(self.memory);
        bytes
    }

    /// Where the memory begins among the bytes.
    pub fn memory_start(&self) -> usize {
        20 + 32 * self.operations.len() + 4 * self.answers.len()
    }
}

#[cfg(test)]
mod tests {
    use super::*;
    use crate::chain::{Operation, Window};

    #[test]
    fn bytes_of_the_sample() {
        let window = Window { start: 0, length: 1 };
        let sample = Sheet {
            limit: 3,
            rate: 10_000_000,
            qpi: false,
            operations: &[Operation::Write(window).into()],
            answers: &[0; 8],
            memory: &[0x9f],
        };
        let stdin = include_bytes!("../../../crates/qspi_sheet/stdin");
        assert_eq!(sample.bytes(), stdin);
        assert_eq!(sample.memory_start(), stdin.len() - 1);
    }
}
