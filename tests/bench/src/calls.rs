//! The calls of the bus, and an opening.

use crate::library::{self, Ended, Lent};
use crate::rust::{Answered, lean, open_lean, open_recorded, recorded};
use crate::timing::{Tables, row};
use oracle_recorder::call::Call as Recorded;
use recorder::call::Call;
use std::cell::RefCell;
use std::hint::black_box;

/// An answer that is ready for every wait: no byte is left to be sent, 64 are received, START is clear.
pub const READY: u32 = 64;
const LIMIT: u32 = 100_000;
/// PLL, oscillator and wanted rate of the opening.
const RATES: [u32; 3] = [1_200_000_000, 24_000_000, 10_000_000];
/// Rate, tclqv and margin of the quad read.
const QUAD: (u32, u32, u8) = (50_000_000, 8, 1);

/// What the three sides of a row do with what they are lent.
struct Sides<A, B, C> {
    lean: A,
    port: B,
    recorded: C,
}

impl<A, B, C> Sides<A, B, C>
where
    A: FnMut(&mut Lent) -> Ended,
    B: FnMut(&mut Lent) -> Ended,
    C: FnMut(Answered) -> Ended,
{
    /// Sees that all sides end alike, with the same log, and times them. The log has room for so many entries; it, the
    /// answers and the bytes are written once before, and used again by every call.
    fn row(mut self, t: &mut Tables, name: &str, room: usize) {
        let (limit, answers): (u32, &'static [u32]) = (LIMIT, vec![READY; room].leak());
        let (mut one, mut two) = (vec![1; 2 * room], vec![1; 2 * room]);
        let a = Answered { limit, room, answers };
        let ends = [
            (self.lean)(&mut Lent::new(limit, &mut one, answers)),
            (self.port)(&mut Lent::new(limit, &mut two, answers)),
            (self.recorded)(a),
        ];
        assert!(ends[0].0 == 0 && ends.iter().all(|e| *e == ends[0]), "{name}: {ends:?}");
        assert!(one == two, "{name}: the logs differ");
        let log = RefCell::new(one);
        let times = t.times([
            &mut || _ = black_box((self.lean)(&mut Lent::new(limit, &mut log.borrow_mut(), answers))),
            &mut || _ = black_box((self.port)(&mut Lent::new(limit, &mut log.borrow_mut(), answers))),
            &mut || _ = black_box((self.recorded)(a)),
        ]);
        if let Some([lean, port, recorded]) = times {
            row(name, lean, port, Some(recorded));
        }
    }
}

/// The room for a phase of so many bytes: what it makes, and some more.
fn room(bytes: usize) -> usize {
    bytes + bytes / 64 + 20
}

fn write_row(t: &mut Tables, length: usize) {
    let bytes: &[u8] = &vec![0x5A; length];
    Sides {
        lean: |l: &mut Lent| lean(l, || lean_driver::calls::call(0, Call::Write(black_box(bytes)))),
        port: |l: &mut Lent| library::write(l, black_box(bytes)),
        recorded: |a| recorded(a, || d13x::calls::call(0, Recorded::Write(black_box(bytes)))),
    }
    .row(t, &format!("write, {length} B"), room(length));
}

fn read_row(t: &mut Tables, length: usize) {
    let [mut one, mut two, mut three] = [(); 3].map(|()| vec![0x5A; length]);
    Sides {
        lean: |l: &mut Lent| lean(l, || lean_driver::calls::call(0, Call::Read(black_box(&mut one)))),
        port: |l: &mut Lent| library::read(l, black_box(&mut two)),
        recorded: |a| recorded(a, || d13x::calls::call(0, Recorded::Read(black_box(&mut three)))),
    }
    .row(t, &format!("read, {length} B"), room(length));
    assert!(one == two, "the bytes differ");
}

fn quad_row(t: &mut Tables, length: usize) {
    let [mut one, mut two, mut three] = [(); 3].map(|()| vec![0x5A; length]);
    let (command, (rate, tclqv_ns, margin)) = ([0x6B, 1, 2, 3], QUAD);
    Sides {
        lean: |l: &mut Lent| {
            let call = Call::QuadRead { command: &command, tclqv_ns, margin, data: black_box(&mut one) };
            lean(l, || lean_driver::calls::call(rate, call))
        },
        port: |l: &mut Lent| library::read_quad(l, QUAD, &command, black_box(&mut two)),
        recorded: |a| {
            let call = Recorded::QuadRead { command: &command, tclqv_ns, margin, data: black_box(&mut three) };
            recorded(a, || d13x::calls::call(rate, call))
        },
    }
    .row(t, &format!("quad read, {length} B, command 4 B"), room(length) + 60);
    assert!(one == two, "the bytes differ");
}

fn quad_write_row(t: &mut Tables, length: usize) {
    let (command, data): ([u8; 4], &[u8]) = ([0x32, 1, 2, 3], &vec![0x5A; length]);
    Sides {
        lean: |l: &mut Lent| lean(l, || lean_driver::calls::call(0, Call::QuadWrite(&command, black_box(data)))),
        port: |l: &mut Lent| library::write_quad(l, &command, black_box(data)),
        recorded: |a| recorded(a, || d13x::calls::call(0, Recorded::QuadWrite(&command, black_box(data)))),
    }
    .row(t, &format!("quad write, {length} B, command 4 B"), room(length) + 60);
}

/// A transfer that writes four bytes and reads so many.
fn transfer_row(t: &mut Tables, length: usize) {
    let [mut one, mut two, mut three] = [(); 3].map(|()| vec![0x5A; length]);
    let sent = [0x03, 1, 2, 3];
    Sides {
        lean: |l: &mut Lent| lean(l, || lean_driver::calls::call(0, Call::Transfer(black_box(&mut one), &sent))),
        port: |l: &mut Lent| library::transfer(l, black_box(&mut two), &sent),
        recorded: |a| recorded(a, || d13x::calls::call(0, Recorded::Transfer(black_box(&mut three), &sent))),
    }
    .row(t, &format!("transfer, 4 B out, {length} B in"), room(length) + 40);
    assert!(one == two, "the bytes differ");
}

fn in_place_row(t: &mut Tables, length: usize) {
    let [mut one, mut two, mut three] = [(); 3].map(|()| vec![0x5A; length]);
    Sides {
        lean: |l: &mut Lent| lean(l, || lean_driver::calls::call(0, Call::InPlace(black_box(&mut one)))),
        port: |l: &mut Lent| library::transfer_in_place(l, black_box(&mut two)),
        recorded: |a| recorded(a, || d13x::calls::call(0, Recorded::InPlace(black_box(&mut three)))),
    }
    .row(t, &format!("transfer in place, {length} B"), 2 * room(length) + 30 * (length / 256 + 1));
    assert!(one == two, "the bytes differ");
}

/// Flush, and the change to mode Quad, the fifth.
fn short_rows(t: &mut Tables) {
    Sides {
        lean: |l: &mut Lent| lean(l, || lean_driver::calls::call(0, Call::Flush)),
        port: library::flush,
        recorded: |a| recorded(a, || d13x::calls::call(0, Recorded::Flush)),
    }
    .row(t, "flush", 10);
    Sides {
        lean: |l: &mut Lent| lean(l, || lean_driver::calls::call(0, Call::Mode(black_box(4)))),
        port: |l: &mut Lent| library::set_work_mode(l, black_box(4)),
        recorded: |a| recorded(a, || d13x::calls::call(0, Recorded::Mode(black_box(4)))),
    }
    .row(t, "mode Quad", 10);
}

pub fn rows(t: &mut Tables) {
    [1, 64, 4096, 65_000].into_iter().for_each(|length| write_row(t, length));
    [1, 64, 4096, 65_000].into_iter().for_each(|length| read_row(t, length));
    [1, 256, 4096].into_iter().for_each(|length| quad_row(t, length));
    [1, 256, 4096].into_iter().for_each(|length| quad_write_row(t, length));
    [1, 256].into_iter().for_each(|length| transfer_row(t, length));
    [1, 4096].into_iter().for_each(|length| in_place_row(t, length));
    short_rows(t);
    Sides {
        lean: |l: &mut Lent| open_lean(l, black_box(RATES)),
        port: |l: &mut Lent| library::open(l, black_box(RATES)),
        recorded: |a| open_recorded(a, black_box(RATES)),
    }
    .row(t, "opening at 10 MHz, PLL 1.2 GHz", 40);
}
