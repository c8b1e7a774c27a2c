//! Sheets from a source of numbers: most of them sound, some damaged in their chain, their header or their length.

use crate::generate::{chain, damage_record, disturb, hz, length, window};
use crate::rng::Rng;
use crate::walk::{Bus, Walk};
use std::fmt::Write;

/// The most bytes of a sheet, and the entries of its log.
const MOST: usize = 65_536;
const LOG: usize = 4096;

/// A sheet before it is bytes.
struct Sheet {
    /// Limit, rate, QPI, record count, answer count.
    header: [u32; 5],
    records: Vec<u32>,
    answers: Vec<u32>,
    memory: Vec<u8>,
}

/// A case line whose bytes are a sheet.
pub fn sheet(rng: &mut Rng, name: &str) -> String {
    let mut s = match rng.below(100) {
        0 | 1 => long(rng),
        2 => polls(rng),
        _ => usual(rng),
    };
    if rng.once_in(60) {
        s.fill(rng);
    }
    if rng.once_in(9) {
        s.damage_header(rng);
    }
    let mut bytes = s.bytes();
    if rng.once_in(12) {
        damage(rng, &mut bytes);
    }
    line(name, &bytes)
}

/// `NAME LENGTH GIVEN b1 .. bGIVEN`; zeros at the end are not given.
pub fn line(name: &str, bytes: &[u8]) -> String {
    let given = bytes.iter().rposition(|&b| b != 0).map_or(0, |last| last + 1);
    let mut text = format!("{name} {} {given}", bytes.len());
    bytes[..given].iter().for_each(|b| write!(text, " {b}").unwrap());
    text
}

/// A chain of every kind, with the answers of its walk.
fn usual(rng: &mut Rng) -> Sheet {
    let (memory, bus) = (length(rng).min(600), bus(rng));
    let mut records = chain(rng, 9, bus.rate, memory);
    if !records.is_empty() && rng.once_in(5) {
        damage_record(rng, &mut records);
    }
    let mut walk = Walk::of_sheet(rng);
    walk.chain(&records, bus);
    Sheet::of(walk, bus, records, memory)
}

/// A chain whose last record moves about as many bytes as the log has entries.
fn long(rng: &mut Rng) -> Sheet {
    let (memory, bus) = (LOG - 200 + rng.below(300), bus(rng));
    let mut records = chain(rng, 9, bus.rate, memory);
    let [start, short] = window(rng, 20);
    let (kind, all) = (rng.pick(&[1, 2, 3, 3, 4, 8, 9]), memory as u32);
    let fields = match kind {
        3 if rng.once_in(2) => [0, all, start, short, 0, 0],
        3 => [start, short, 0, all, 0, 0],
        8 | 9 => [start, short, 0, 1, 0, all],
        _ => [0, all, 0, 0, 0, 0],
    };
    append(&mut records, kind, fields);
    let mut walk = Walk::of_sheet(rng);
    walk.walked = memory;
    walk.chain(&records, bus);
    Sheet::of(walk, bus, records, memory)
}

/// A chain whose last record is a flush that polls until the log is full, just not full, or wants one entry more.
fn polls(rng: &mut Rng) -> Sheet {
    let (memory, bus) = (length(rng).min(600), bus(rng));
    let mut records = chain(rng, 9, bus.rate, memory);
    let mut walk = Walk::of_sheet(rng);
    walk.limit = walk.rng.pick(&[LOG, 100_000, 1 << 31, 0xFFFF_FFFF]);
    if walk.chain(&records, bus) && walk.entries + 1 < LOG {
        let left = walk.rng.near((LOG - walk.entries) as u32);
        walk.polls(left as usize);
        append(&mut records, 6, [0; 6]);
    }
    Sheet::of(walk, bus, records, memory)
}

/// A record behind the last of a chain.
fn append(records: &mut Vec<u32>, kind: u32, fields: [u32; 6]) {
    let number = records.len() as u32 / 8 + 1;
    records.chunks_exact_mut(8).filter(|r| r[7] == 0).for_each(|r| r[7] = number);
    records.push(kind);
    records.extend(fields);
    records.push(0);
}

fn bus(rng: &mut Rng) -> Bus {
    Bus { rate: hz(rng), qpi: rng.once_in(2) }
}

impl Sheet {
    fn of(mut walk: Walk, bus: Bus, records: Vec<u32>, memory: usize) -> Sheet {
        disturb(walk.rng, &mut walk.answers);
        let (limit, qpi) = (walk.limit as u32, u32::from(bus.qpi));
        let counts = [records.len() as u32 / 8, walk.answers.len() as u32];
        let memory = (0..memory).map(|_| walk.rng.below(256) as u8).collect();
        Sheet { header: [limit, bus.rate, qpi, counts[0], counts[1]], records, answers: walk.answers, memory }
    }

    fn bytes(&self) -> Vec<u8> {
        let words = self.header.iter().chain(&self.records).chain(&self.answers);
        words.flat_map(|w| w.to_le_bytes()).chain(self.memory.iter().copied()).collect()
    }

    /// Makes the memory so long that the sheet is as long as it may be, and moves a window to its end or one too far.
    fn fill(&mut self, rng: &mut Rng) {
        let more = MOST.saturating_sub(self.bytes().len());
        self.memory.resize(self.memory.len() + more, 0);
        let (memory, far) = (self.memory.len() as u32, u32::from(rng.once_in(6)));
        if let Some(r) = self.records.first_chunk_mut::<8>()
            && (1..=4).contains(&r[0])
        {
            r[1] = memory.saturating_sub(r[2]) + far;
        }
    }

    /// Makes a word of the header wrong, or another.
    fn damage_header(&mut self, rng: &mut Rng) {
        let h = &mut self.header;
        let (any, most) = (rng.sized(), u32::MAX);
        let ([fewer, less], [more, longer]) = ([h[3], h[4]].map(|n| n.wrapping_sub(1)), [h[3] + 1, h[4] + 1]);
        match rng.below(9) {
            0 => h[0] = 0,
            1 => h[1] = any,
            2 => h[2] = rng.pick(&[2, 3, 256, 1 << 31, most]),
            3 => h[2] = 1 - h[2],
            4 | 5 => h[3] = rng.pick(&[fewer, more, more, 0x07FF_FFFF, 0x0800_0000, 0x0800_0001, most, any]),
            6 | 7 => h[4] = rng.pick(&[less, longer, longer, 0x3FFF_FFFF, 0x4000_0000, most, any]),
            _ => (h[3], h[4]) = rng.pick(&[(0x0400_0000, 0x2000_0000), (most, most), (0x0800_0000, 0x4000_0000)]),
        }
    }
}

/// Cuts or lengthens the bytes, or makes one of them another.
fn damage(rng: &mut Rng, bytes: &mut Vec<u8>) {
    let n = bytes.len();
    match rng.below(9) {
        0 => bytes.truncate(rng.below(n + 1)),
        1 => bytes.truncate(n - 1),
        2 => bytes.truncate(rng.below(22)),
        3 => bytes.extend((0..=rng.below(5)).map(|_| 0xA5)),
        4 => bytes.resize(MOST - 1, 0),
        5 => bytes.resize(MOST, 0),
        6 => bytes.resize(MOST + 1, 0),
        7 => bytes[rng.below(20)] = rng.below(256) as u8,
        _ => bytes[rng.below(n)] = rng.below(256) as u8,
    }
}
