//! The calls on numbers and slices: every function of the library once. Nothing is asked of their arguments. A number that is
//! no work mode or divider is refused, by 8 or 12.

use crate::ended::{Counts, Ended, Number};
use crate::ffi;

/// What every call on a bus is lent.
#[derive(Debug)]
pub struct Lent<'a> {
    /// The unready poll with this number in one wait ends the call with 1; 0 is refused by 7.
    pub limit: u32,
    /// Written: two words for each entry, the rest is left alone.
    pub log: &'a mut [u32],
    /// What the register reads, and the bytes got, are answered.
    pub answers: &'a [u32],
}

/// What counts hold before a call, so that one that is not written shows.
const UNWRITTEN: Counts = Counts { entries: u64::MAX, taken: u64::MAX, polls: u64::MAX, longest: u64::MAX };

/// Makes a call that gives a number and writes counts.
fn counted(call: impl FnOnce(&mut Counts) -> u32) -> Ended {
    let mut counts = UNWRITTEN;
    let number = Number::from(call(&mut counts));
    Ended { number, counts }
}

/// Makes a call on what it is lent and its own arguments. A core rate goes behind the limit.
macro_rules! made {
    ($f:ident, $lent:expr $(; $core_hz:expr)? $(, $argument:expr)*) => {
        // SAFETY: every pointer and its length are those of a slice, and what is written is lent exclusively.
        counted(|counts| unsafe {
            ffi::$f(
                $lent.limit,
                $($core_hz,)?
                $lent.log.as_mut_ptr(),
                $lent.log.len(),
                $lent.answers.as_ptr(),
                $lent.answers.len(),
                $($argument,)*
                counts,
            )
        })
    };
}

/// What an opening is asked for, as numbers and flags.
#[derive(Clone, Copy, Debug, PartialEq, Eq)]
pub struct Opening {
    /// The instance; above 3 it is refused by 4.
    pub instance: u32,
    /// The chip has QPI.
    pub qpi: bool,
    /// The rate that the module clock is divided from; 0, and 3,200,000,032 and more, are refused by 23.
    pub pll_hz: u32,
    /// The oscillator's rate.
    pub osc_hz: u32,
    /// The core rate in Hz, for the delays of the bus's transactions; 0 is refused by 14.
    pub core_hz: u32,
    /// The target rate.
    pub freq: u32,
    /// The clock idles high: SPI modes 2 and 3.
    pub idle_high: bool,
    /// Data is captured on the second transition: SPI modes 1 and 3, refused by 3.
    pub second_transition: bool,
    /// Control mode master, else slave.
    pub master: bool,
    /// The work mode's number; above 6 it is refused by 8.
    pub work_mode: u32,
    /// Bit mode is enabled.
    pub bit_mode: bool,
    /// The least significant bit goes first.
    pub lsb_first: bool,
    /// The chip-select record, if there is one: idle high, level high, pin 1.
    pub cs: Option<[bool; 3]>,
}

/// Opens a bus: how that ended, and the rate, which is from 1 to 100,000,000 Hz with the number 0, else 0. Gives 0, 3,
/// 4, 5, 7, 8, 10, 11, 14 or 23.
pub fn open(lent: &mut Lent, o: &Opening) -> (Ended, u32) {
    let mut sck_hz = u32::MAX;
    let [cs_idle_high, cs_high, cs_1] = o.cs.unwrap_or_default();
    let ended = made!(
        qspi_open,
        lent,
        o.instance,
        o.qpi,
        o.pll_hz,
        o.osc_hz,
        o.core_hz,
        o.freq,
        o.idle_high,
        o.second_transition,
        o.master,
        o.work_mode,
        o.bit_mode,
        o.lsb_first,
        o.cs.is_some(),
        cs_idle_high,
        cs_high,
        cs_1,
        &mut sck_hz
    );
    (ended, sck_hz)
}

/// Releases an instance: disables its clock and resets its module. It has no limit. Gives 0, 10 or 11.
pub fn free(log: &mut [u32], answers: &[u32], instance: u32) -> Ended {
    // SAFETY: every pointer and its length are those of a slice, and what is written is lent exclusively.
    counted(|counts| unsafe {
        ffi::qspi_free(log.as_mut_ptr(), log.len(), answers.as_ptr(), answers.len(), instance, counts)
    })
}

/// Writes all the bytes on a single line. Gives 0, 1, 6, 7, 10 or 11.
pub fn write(lent: &mut Lent, bytes: &[u8]) -> Ended {
    made!(qspi_write, lent, bytes.as_ptr(), bytes.len())
}

/// Reads as many bytes as there is room for; a byte that is not got keeps its value. Gives 0, 1, 6, 7, 10 or 11.
pub fn read(lent: &mut Lent, bytes: &mut [u8]) -> Ended {
    made!(qspi_read, lent, bytes.as_mut_ptr(), bytes.len())
}

/// Writes all of `write`, then reads all of `read`. Gives 0, 1, 6, 7, 10 or 11.
pub fn transfer(lent: &mut Lent, read: &mut [u8], write: &[u8]) -> Ended {
    made!(qspi_transfer, lent, read.as_mut_ptr(), read.len(), write.as_ptr(), write.len())
}

/// Writes the bytes and reads as many back in their place, by parts of 256; no copy of a part is made. Gives 0, 1, 7, 10
/// or 11.
pub fn transfer_in_place(lent: &mut Lent, bytes: &mut [u8]) -> Ended {
    made!(qspi_transfer_in_place, lent, bytes.as_mut_ptr(), bytes.len())
}

/// Waits for the transfer to complete. Gives 0, 1, 7, 10 or 11.
pub fn flush(lent: &mut Lent) -> Ended {
    made!(qspi_flush, lent)
}

/// Changes the work mode after a wait, by its number. Every mode other than QPI leaves QPI: it clears 038 bit 31 too.
/// Gives 0, 1, 2, 7, 8, 10 or 11.
pub fn set_work_mode(lent: &mut Lent, qpi: bool, mode: u32) -> Ended {
    made!(qspi_set_work_mode, lent, qpi, mode)
}

/// What a quad read is asked for besides its data.
#[derive(Clone, Copy, Debug, PartialEq, Eq)]
pub struct QuadRead<'a> {
    /// The rate of the bus.
    pub hz: u32,
    /// Sent on one line, before the dummy bytes.
    pub command: &'a [u8],
    /// The time in which the flash puts out data, in nanoseconds.
    pub tclqv_ns: u32,
    /// Dummy bytes added.
    pub margin: u8,
}

/// Reads `data` on four lines, after a command and its dummy bytes on one. Gives 0, 1, 6, 7, 10 or 11.
pub fn read_quad(lent: &mut Lent, asked: &QuadRead, data: &mut [u8]) -> Ended {
    made!(
        qspi_read_quad,
        lent,
        asked.hz,
        asked.command.as_ptr(),
        asked.command.len(),
        asked.tclqv_ns,
        asked.margin,
        data.as_mut_ptr(),
        data.len()
    )
}

/// Writes `data` on four lines, after `command` on one. Gives 0, 1, 6, 7, 10 or 11.
pub fn write_quad(lent: &mut Lent, command: &[u8], data: &[u8]) -> Ended {
    made!(qspi_write_quad, lent, command.as_ptr(), command.len(), data.as_ptr(), data.len())
}

/// Runs a chain of records, eight words each, on a memory. [`chain`](crate::chain) makes the words; any others are
/// tested, along the whole chain, before the first access. `core_hz`: the core rate in Hz, that of the bus's opening.
/// The cycles of a delay are the ceiling of ns × `core_hz` ÷ 10⁹, and so last at least its ns nanoseconds. Gives 0, 1,
/// 6, 7, 8, 9, 10, 11 or 14.
pub fn transaction(lent: &mut Lent, core_hz: u32, memory: &mut [u8], words: &[u32]) -> Ended {
    made!(qspi_transaction, lent; core_hz, memory.as_mut_ptr(), memory.len(), words.as_ptr(), words.len())
}

/// Runs a whole sheet, whose memory is at the end of its bytes. [`Sheet`](crate::Sheet) makes the bytes; any others are
/// tested first. The cycles of a delay are ns ÷ 2. Gives 0, 1, 2, 7, 8, 9, 10, 11 or 13. It needs some 72,000
/// bytes of stack.
pub fn sheet(bytes: &mut [u8], log: &mut [u32]) -> Ended {
    // SAFETY: every pointer and its length are those of a slice, and what is written is lent exclusively.
    counted(|counts| unsafe { ffi::qspi_sheet(bytes.as_mut_ptr(), bytes.len(), log.as_mut_ptr(), log.len(), counts) })
}

/// The dividers nearest to a target: the module divider, the kind (1 Cdr1, 2 Cdr2) and its count. Where no module clock
/// is from 1 to 100,000,000 Hz, which an opening refuses by 23: 0, 1, 0.
pub fn select_clock(pll: u32, target: u32) -> (u32, u32, u32) {
    let (mut mod_div, mut kind, mut count) = (u32::MAX, 0, u32::MAX);
    ffi::qspi_select_clock(pll, target, &mut mod_div, &mut kind, &mut count);
    (mod_div, kind, count)
}

/// The number, 0 or 12, and the rate that dividers give, which is 0 with 12.
pub fn actual_sck(pll: u32, mod_div: u32, kind: u32, count: u32) -> (Number, u32) {
    let mut rate = u32::MAX;
    let number = ffi::qspi_actual_sck(pll, mod_div, kind, count, &mut rate);
    (Number::from(number), rate)
}

/// The dummy bytes of a quad read at a rate.
pub fn dummy_bytes_for(hz: u32, tclqv_ns: u32, margin: u8) -> u8 {
    ffi::qspi_dummy_bytes_for(hz, tclqv_ns, margin)
}

/// The limit of unready polls in one wait that the Rust driver has: 100,000.
pub fn default_limit() -> u32 {
    ffi::qspi_default_limit()
}
