//! The port's library: the only part that knows its package.

use qspi::by_number as library;
use recorder::Counts;

/// How a call ended: its number and its counts.
pub type Ended = (u32, Counts);

/// What a call is lent.
pub struct Lent<'a> {
    pub limit: u32,
    pub log: &'a mut [u32],
    pub answers: &'a [u32],
}

impl<'a> Lent<'a> {
    pub fn new(limit: u32, log: &'a mut [u32], answers: &'a [u32]) -> Self {
        Lent { limit, log, answers }
    }
}

fn ended(e: qspi::Ended) -> Ended {
    let c = e.counts;
    let [entries, taken, polls] = [c.entries, c.taken, c.polls].map(|n| n as usize);
    (e.number.get(), Counts { entries, taken, polls, longest: c.longest as u32 })
}

fn lent<'a>(l: &'a mut Lent) -> library::Lent<'a> {
    library::Lent { limit: l.limit, log: l.log, answers: l.answers }
}

pub fn write(l: &mut Lent, bytes: &[u8]) -> Ended {
    ended(library::write(&mut lent(l), bytes))
}

pub fn read(l: &mut Lent, bytes: &mut [u8]) -> Ended {
    ended(library::read(&mut lent(l), bytes))
}

pub fn flush(l: &mut Lent) -> Ended {
    ended(library::flush(&mut lent(l)))
}

pub fn transfer(l: &mut Lent, read: &mut [u8], write: &[u8]) -> Ended {
    ended(library::transfer(&mut lent(l), read, write))
}

pub fn transfer_in_place(l: &mut Lent, bytes: &mut [u8]) -> Ended {
    ended(library::transfer_in_place(&mut lent(l), bytes))
}

/// On the chip with QPI.
pub fn set_work_mode(l: &mut Lent, mode: u32) -> Ended {
    ended(library::set_work_mode(&mut lent(l), true, mode))
}

pub fn write_quad(l: &mut Lent, command: &[u8], data: &[u8]) -> Ended {
    ended(library::write_quad(&mut lent(l), command, data))
}

/// A quad read at a rate, with tclqv and margin.
pub fn read_quad(l: &mut Lent, (hz, tclqv_ns, margin): (u32, u32, u8), command: &[u8], data: &mut [u8]) -> Ended {
    let asked = library::QuadRead { hz, command, tclqv_ns, margin };
    ended(library::read_quad(&mut lent(l), &asked, data))
}

/// An opening at mode 0 as master with work mode Standard, without a chip-select record.
pub fn open(l: &mut Lent, [pll_hz, osc_hz, freq]: [u32; 3]) -> Ended {
    let asked = library::Opening {
        instance: 0,
        qpi: true,
        pll_hz,
        osc_hz,
        core_hz: 1_000_000_000,
        freq,
        idle_high: false,
        second_transition: false,
        master: true,
        work_mode: 0,
        bit_mode: false,
        lsb_first: false,
        cs: None,
    };
    ended(library::open(&mut lent(l), &asked).0)
}

pub fn sheet(log: &mut [u32], bytes: &mut [u8]) -> Ended {
    ended(library::sheet(bytes, log))
}

/// Module divider, 1 for Cdr1 or 2 for Cdr2, its divider.
pub fn select_clock(pll: u32, target: u32) -> (u32, u32, u32) {
    library::select_clock(pll, target)
}
