//! Safe functions over the proved QSPI library (`bindings/build`).
//!
//! No call touches a register. A call is lent the words that the registers answer, and a log that it writes what it did
//! into ([`Lent`]); it says how it ended by a number and its counts ([`Ended`]). [`Ended::log`] reads the log back.
//!
//! ```
//! let mut log = [0; 6];
//! let answers = [0x8000_0000, 0x8000_0000, 0];
//! let ended = qspi::flush(&mut qspi::Lent { limit: 3, log: &mut log, answers: &answers });
//! assert_eq!(ended.number, qspi::Number::Done);
//! assert_eq!(ended.counts.longest, 2);
//! let last = ended.log(&log).last().unwrap();
//! assert_eq!((last.op, last.place, last.value), (qspi::Op::Read, 0x008, 0));
//! ```
//!
//! Arguments that only some numbers are allowed for have types of their own ([`WorkMode`], [`Divider`], [`Opening`]).
//! [`by_number`] has the same calls with any numbers, and there those that are no mode or divider are refused.
//! The functions that take any value of their arguments are the same in both.
//!
//! What each call does, and the numbers it can give, is also said in the C header, `bindings/c/qspi.h`.
#![deny(unsafe_code)]
#![warn(missing_docs)]

#[allow(unsafe_code)]
pub mod by_number;
mod chain;
mod clock;
mod ended;
#[allow(unsafe_code)]
mod ffi;
mod log;
mod opening;
mod sheet;

pub use by_number::{
    Lent, QuadRead, default_limit, dummy_bytes_for, flush, free, read, read_quad, sheet, transaction, transfer,
    transfer_in_place, write, write_quad,
};
pub use chain::{Operation, RECORD_WORDS, SheetOperation, Window, chain};
pub use clock::{Choice, Divider, actual_sck, select_clock};
pub use ended::{Counts, Ended, Number};
pub use log::{Entries, Entry, MODULE_CLOCK, Op};
pub use opening::{
    Bus, Config, CsConfig, CsLevel, CsPin, CtrlMode, Opened, Opening, Polarity, SpiMode, WorkMode, open, set_work_mode,
};
pub use sheet::{SHEET_BYTES, SHEET_LOG_WORDS, Sheet};

/// The longest phase: a longer write, read, transfer or quad call is refused by 6.
pub const MAX_LENGTH: usize = 0xFF_FFFF;
