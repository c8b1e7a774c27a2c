//! Records of eight words: kind, f1 to f6, next.

use crate::opening::WorkMode;

/// The words of a record.
pub const RECORD_WORDS: usize = 8;

/// A part of the lent memory. Windows may overlap.
#[derive(Clone, Copy, Debug, PartialEq, Eq, Hash)]
pub struct Window {
    /// Its first byte.
    pub start: u32,
    /// Its length in bytes. Where start + length is above the memory's length, the chain is refused by 9.
    pub length: u32,
}

/// What a record of a transaction asks for: kinds 1 to 5.
#[derive(Clone, Copy, Debug, PartialEq, Eq, Hash)]
pub enum Operation {
    /// Kind 1: writes a window.
    Write(Window),
    /// Kind 2: reads into a window.
    Read(Window),
    /// Kind 3: writes one window, then reads into another.
    Transfer {
        /// What is read into.
        read: Window,
        /// What is written, as its bytes stand when the record begins.
        write: Window,
    },
    /// Kind 4: writes a window and reads as much back in its place, by parts of 256 bytes.
    InPlace(Window),
    /// Kind 5: a delay. In a transaction its cycles are the ceiling of `ns` × core rate ÷ 10⁹, and so last at least
    /// `ns`; more than 2³² − 1 are refused by 14. In a sheet they are `ns` ÷ 2.
    Delay {
        /// Nanoseconds.
        ns: u32,
    },
}

/// What a record of a sheet asks for: kinds 1 to 9.
#[derive(Clone, Copy, Debug, PartialEq, Eq, Hash)]
pub enum SheetOperation {
    /// Kinds 1 to 5: as in a transaction.
    Operation(Operation),
    /// Kind 6: a flush.
    Flush,
    /// Kind 7: a work mode.
    Mode(WorkMode),
    /// Kind 8: a quad read.
    QuadRead {
        /// Sent on one line, before the dummy bytes.
        command: Window,
        /// The time in which the flash puts out data, in nanoseconds.
        tclqv_ns: u32,
        /// Dummy bytes added.
        margin: u8,
        /// What is read into, on four lines.
        data: Window,
    },
    /// Kind 9: a quad write.
    QuadWrite {
        /// Sent on one line.
        command: Window,
        /// Sent on four lines.
        data: Window,
    },
}

impl Operation {
    /// The record. `next`: the number of the record that follows it, counted from 1, or 0 at the end.
    pub fn record(self, next: u32) -> [u32; RECORD_WORDS] {
        match self {
            Operation::Write(w) => [1, w.start, w.length, 0, 0, 0, 0, next],
            Operation::Read(w) => [2, w.start, w.length, 0, 0, 0, 0, next],
            Operation::Transfer { read: r, write: w } => [3, r.start, r.length, w.start, w.length, 0, 0, next],
            Operation::InPlace(w) => [4, w.start, w.length, 0, 0, 0, 0, next],
            Operation::Delay { ns } => [5, ns, 0, 0, 0, 0, 0, next],
        }
    }
}

impl SheetOperation {
    /// The record. `next`: the number of the record that follows it, counted from 1, or 0 at the end.
    pub fn record(self, next: u32) -> [u32; RECORD_WORDS] {
        match self {
            SheetOperation::Operation(operation) => operation.record(next),
            SheetOperation::Flush => [6, 0, 0, 0, 0, 0, 0, next],
            SheetOperation::Mode(mode) => [7, mode.number(), 0, 0, 0, 0, 0, next],
            SheetOperation::QuadRead { command: c, tclqv_ns, margin, data: d } => {
                let (f3, f4) = (tclqv_ns, margin.into());
                [8, c.start, c.length, f3, f4, d.start, d.length, next]
            }
            SheetOperation::QuadWrite { command: c, data: d } => [9, c.start, c.length, 0, 0, d.start, d.length, next],
        }
    }
}

impl From<Operation> for SheetOperation {
    fn from(operation: Operation) -> Self {
        SheetOperation::Operation(operation)
    }
}

/// The next of each record in a chain of so many, first to last.
pub(crate) fn nexts(count: usize) -> impl Iterator<Item = u32> {
    (1..=count).map(move |own| if own < count { own as u32 + 1 } else { 0 })
}

/// The words of a transaction: the records one after the other, each going on with the next. None is refused by 8.
pub fn chain(operations: &[Operation]) -> Vec<u32> {
    let records = operations.iter().zip(nexts(operations.len()));
    records.flat_map(|(o, next)| o.record(next)).collect()
}

#[cfg(test)]
mod tests {
    use super::*;

    const A: Window = Window { start: 1, length: 2 };
    const B: Window = Window { start: 3, length: 4 };

    #[test]
    fn kinds_of_a_transaction() {
        let words = chain(&[
            Operation::Write(A),
            Operation::Read(A),
            Operation::Transfer { read: A, write: B },
            Operation::InPlace(A),
            Operation::Delay { ns: 9 },
        ]);
        let records = [
            [1, 1, 2, 0, 0, 0, 0, 2],
            [2, 1, 2, 0, 0, 0, 0, 3],
            [3, 1, 2, 3, 4, 0, 0, 4],
            [4, 1, 2, 0, 0, 0, 0, 5],
            [5, 9, 0, 0, 0, 0, 0, 0],
        ];
        assert_eq!(words, records.concat());
        assert_eq!(chain(&[]), []);
    }

    #[test]
    fn kinds_of_a_sheet() {
        let read = SheetOperation::QuadRead { command: A, tclqv_ns: 5, margin: 6, data: B };
        let write = SheetOperation::QuadWrite { command: A, data: B };
        for (operation, words) in [
            (Operation::Write(A).into(), [1, 1, 2, 0, 0, 0, 0, 7]),
            (SheetOperation::Flush, [6, 0, 0, 0, 0, 0, 0, 7]),
            (SheetOperation::Mode(WorkMode::Qpi), [7, 6, 0, 0, 0, 0, 0, 7]),
            (read, [8, 1, 2, 5, 6, 3, 4, 7]),
            (write, [9, 1, 2, 0, 0, 3, 4, 7]),
        ] {
            assert_eq!(operation.record(7), words);
        }
    }
}
