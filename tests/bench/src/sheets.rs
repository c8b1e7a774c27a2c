//! Whole sheets, small and full.

use crate::calls::READY;
use crate::timing::{Tables, row};
use crate::{library, rust};
use std::hint::black_box;

const MOST: usize = 65_536;
const LOG_WORDS: usize = 8192;

/// A sheet at limit 3 and 10 MHz without QPI. Its memory fills it up to a length.
fn sheet(records: &[[u32; 8]], answers: &[u32], length: usize) -> Vec<u8> {
    let header = [3, 10_000_000, 0, records.len() as u32, answers.len() as u32];
    let words = header.iter().chain(records.iter().flatten()).chain(answers);
    let mut bytes: Vec<u8> = words.flat_map(|w| w.to_le_bytes()).collect();
    assert!(bytes.len() <= length);
    bytes.resize(length, 0x9F);
    bytes
}

/// 65,536 bytes: a read and a write of 1,990 bytes, which fill the log but for a few entries.
pub fn of_bytes() -> Vec<u8> {
    let records = [[2, 0, 1990, 0, 0, 0, 0, 2], [1, 1990, 1990, 0, 0, 0, 0, 0]];
    sheet(&records, &[READY; 2100], MOST)
}

/// 65,516 bytes: as many records as there is room for, each a delay.
fn of_records() -> Vec<u8> {
    let count = (MOST - 20) / 32;
    let record = |n: usize| [5, 1000, 0, 0, 0, 0, 0, if n < count { n as u32 + 1 } else { 0 }];
    let records: Vec<[u32; 8]> = (1..=count).map(record).collect();
    sheet(&records, &[], 20 + 32 * count)
}

/// 65,536 bytes: as many answers as there is room for, of which a flush takes one.
fn of_answers() -> Vec<u8> {
    sheet(&[[6, 0, 0, 0, 0, 0, 0, 0]], &[READY; (MOST - 52) / 4], MOST)
}

fn sheet_row(t: &mut Tables, name: &str, bytes: &[u8]) {
    let [(mut one, mut log), (mut two, mut other)] = [(); 2].map(|()| (bytes.to_vec(), vec![1; LOG_WORDS]));
    let ends = [rust::sheet(&mut log, &mut one), library::sheet(&mut other, &mut two)];
    assert!(ends[0] == ends[1] && ends[0].0 == 0, "{name}: {ends:?}");
    assert!(one == two && log == other, "{name}: log or bytes differ");
    let times = t.times([
        &mut || _ = black_box(rust::opened(black_box(bytes))),
        &mut || _ = black_box(rust::sheet(&mut log, black_box(&mut one))),
        &mut || _ = black_box(library::sheet(&mut other, black_box(&mut two))),
    ]);
    if let Some([reading, lean, port]) = times {
        let entries = ends[0].1.entries;
        let name = format!("{name}, {entries} entries (the Rust's reading alone: {reading:.3})");
        row(&name, lean, port, None);
    }
}

pub fn rows(t: &mut Tables) {
    sheet_row(t, "document 01's sheet", include_bytes!("../../../crates/qspi_sheet/stdin"));
    sheet_row(t, "full sheet of bytes", &of_bytes());
    sheet_row(t, "full sheet of 2,047 records", &of_records());
    sheet_row(t, "full sheet of 16,371 answers", &of_answers());
}
