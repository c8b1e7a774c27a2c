//! A chain of records: read along its nexts, then called record by record.

use crate::run::call;
use recorder::call::{Call, How};
use std::ops::Range;

/// Eight words: kind, f1 to f6, next.
pub type Record = [u32; 8];

/// The highest kind of a transaction's records, and of a sheet's.
pub const OF_TRANSACTIONS: u32 = 5;
pub const OF_SHEETS: u32 = 9;

/// What the fields of a kind are: where each of its windows begins, and a field that is no window's with the most it may be.
struct Kind {
    windows: &'static [usize],
    most: (usize, u32),
}

const fn kind(windows: &'static [usize], most: (usize, u32)) -> Kind {
    Kind { windows, most }
}

/// Every value of a field is in range.
const ANY: (usize, u32) = (1, u32::MAX);

/// Kinds 1 to 9.
const KINDS: [Kind; 9] = [
    kind(&[1], ANY),
    kind(&[1], ANY),
    kind(&[1, 3], ANY),
    kind(&[1], ANY),
    kind(&[], ANY),
    kind(&[], ANY),
    kind(&[], (1, 6)),
    kind(&[1, 5], (4, 255)),
    kind(&[1, 5], ANY),
];

/// The records along the chain, or nothing where document 01 refuses it (8 or 9): the Rust has no such thing.
pub fn chain(words: &[u32], highest: u32, memory: usize) -> Option<Vec<Record>> {
    if !words.len().is_multiple_of(8) {
        return None;
    }
    let records: Vec<Record> = words.chunks(8).map(|r| r.try_into().unwrap()).collect();
    let mut on_chain = Vec::new();
    let mut at = usize::from(!records.is_empty());
    while at != 0 {
        let r = records[at - 1];
        let next = r[7] as usize;
        if !fields(&r, highest, memory) || (next != 0 && (next <= at || next > records.len())) {
            return None;
        }
        on_chain.push(r);
        at = next;
    }
    Some(on_chain)
}

/// Whether the kind is known, its field in range and its windows inside the memory.
fn fields(r: &Record, highest: u32, memory: usize) -> bool {
    if !(1..=highest).contains(&r[0]) {
        return false;
    }
    let Kind { windows, most } = &KINDS[r[0] as usize - 1];
    let inside = |&at: &usize| u64::from(r[at]) + u64::from(r[at + 1]) <= memory as u64;
    r[most.0] <= most.1 && windows.iter().all(inside)
}

fn window(start: u32, length: u32) -> Range<usize> {
    start as usize..start as usize + length as usize
}

/// The chain record by record, on the chip with QPI or the one without; the first number other than 0 ends it.
pub fn run(chain: &[Record], qpi: bool, rate: u32, memory: &mut [u8]) -> How {
    let mut ends = chain.iter().map(|r| record(r, qpi, rate, memory));
    let other = ends.find(|how| *how != How::Number(0));
    other.unwrap_or(How::Number(0))
}

/// One record; a copy of the part that is sent is taken when the record begins.
fn record(r: &Record, qpi: bool, rate: u32, memory: &mut [u8]) -> How {
    let [kind, f1, f2, f3, f4, f5, f6, _] = *r;
    let copy = |start, length| memory[window(start, length)].to_vec();
    let sent = match kind {
        1 | 8 | 9 => copy(f1, f2),
        3 => copy(f3, f4),
        _ => Vec::new(),
    };
    let data = if kind == 9 { copy(f5, f6) } else { Vec::new() };
    let asked = match kind {
        1 => Call::Write(&sent),
        2 => Call::Read(&mut memory[window(f1, f2)]),
        3 => Call::Transfer(&mut memory[window(f1, f2)], &sent),
        4 => Call::InPlace(&mut memory[window(f1, f2)]),
        5 => Call::DelayNs(f1),
        6 => Call::Flush,
        7 => Call::Mode(f1),
        8 => Call::QuadRead { command: &sent, tclqv_ns: f3, margin: f4 as u8, data: &mut memory[window(f5, f6)] },
        _ => Call::QuadWrite(&sent, &data),
    };
    call(qpi, rate, asked)
}
