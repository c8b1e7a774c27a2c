//! Time per entry as the run grows.

use crate::calls::READY;
use crate::library::{self, Ended, Lent};
use crate::rust::lean;
use crate::timing::{Tables, best};
use recorder::call::Call;
use std::hint::black_box;

/// An answer that is unready for a flush: START is set.
const START: u32 = 1 << 31;

/// Nanoseconds an entry, of the Rust and of the port, where times are asked for.
type Times = Option<[f64; 2]>;

/// Sees that both sides end alike, with so many entries and the same log, and times them.
fn per_entry(
    t: &mut Tables,
    entries: usize,
    answers: &[u32],
    mut rust: impl FnMut(&mut Lent) -> Ended,
    mut port: impl FnMut(&mut Lent) -> Ended,
) -> Times {
    let limit = 100_000;
    let (mut one, mut two) = (vec![1; 2 * entries], vec![1; 2 * entries]);
    let ends = [rust(&mut Lent::new(limit, &mut one, answers)), port(&mut Lent::new(limit, &mut two, answers))];
    assert!(ends[0] == ends[1] && ends[0].1.entries == entries && one == two, "{ends:?}");
    let mut rust = || _ = black_box(rust(&mut Lent::new(limit, &mut one, answers)));
    let mut port = || _ = black_box(port(&mut Lent::new(limit, &mut two, answers)));
    let times = t.times([&mut rust, &mut port])?;
    Some(times.map(|t| t * 1e3 / entries as f64))
}

/// The most bytes of a phase that makes at most so many entries at ready answers, and the entries it makes; `besides` of
/// them are neither bytes nor the polls before them.
fn bytes_for(entries: usize, besides: usize) -> (usize, usize) {
    let made = |n: usize| n + n.div_ceil(64) + besides;
    let bytes = (1..entries).rev().find(|&n| made(n) <= entries);
    bytes.map_or((0, 0), |n| (n, made(n)))
}

fn write(t: &mut Tables, entries: usize) -> Times {
    let (length, made) = bytes_for(entries, 13);
    let bytes = vec![0x5A; length];
    per_entry(
        t,
        made,
        &vec![READY; entries],
        |l| lean(l, || lean_driver::calls::call(0, Call::Write(black_box(&bytes)))),
        |l| library::write(l, black_box(&bytes)),
    )
}

fn read(t: &mut Tables, entries: usize) -> Times {
    let (length, made) = bytes_for(entries, 12);
    let (mut one, mut two) = (vec![0x5A; length], vec![0x5A; length]);
    let times = per_entry(
        t,
        made,
        &vec![READY; entries],
        |l| lean(l, || lean_driver::calls::call(0, Call::Read(black_box(&mut one)))),
        |l| library::read(l, black_box(&mut two)),
    );
    assert!(one == two, "the bytes differ");
    times
}

/// A flush of which only the last poll is ready.
fn polls(t: &mut Tables, entries: usize) -> Times {
    let mut answers = vec![START; entries];
    answers[entries - 1] = 0;
    let flush = |l: &mut Lent| lean(l, || lean_driver::calls::call(0, Call::Flush));
    per_entry(t, entries, &answers, flush, library::flush)
}

/// The shortest phase makes more than ten entries.
fn row(t: &mut Tables, entries: usize) {
    let (write, read) = if entries < 15 { (None, None) } else { (write(t, entries), read(t, entries)) };
    let Some(polls) = polls(t, entries) else { return };
    let cells = |times: Times| times.map_or("– | –".into(), |[rust, port]| format!("{rust:.2} | {port:.2}"));
    println!("| {entries} | {} | {} | {} |", cells(write), cells(read), cells(Some(polls)));
}

/// Nanoseconds of the hint that the Rust gives between two polls, and the port does not.
fn hint() -> f64 {
    let [thousand] = best([&mut || (0..1000).for_each(|_| std::hint::spin_loop())]);
    thousand
}

pub fn rows(t: &mut Tables) {
    [10, 20, 100, 1000, 4000, 10_000, 40_000].into_iter().for_each(|entries| row(t, entries));
    if t.timed {
        println!("\nspin_loop alone: {:.2} ns", hint());
    }
}
