//! The driver's calls on recorded registers, with cuts and panics caught.

use crate::cmu::{ClockTree, Cmu};
use crate::qspi::blocking::BlockingQspi;
use crate::qspi::config::{CsConfig, QspiConfig, WorkMode};
use crate::qspi::error::QspiError;
use crate::qspi::pad::NoPads;
use crate::qspi::register::{CsLevel, CsPin, CtrlMode, RegisterBlock};
use embedded_hal::spi::{MODE_0, MODE_1, MODE_2, MODE_3, Operation, Polarity, SpiBus, SpiDevice};
use embedded_time::rate::Hertz;
use recorder::Cut;
use recorder::call::{Call, How, Opening};
use std::panic::{AssertUnwindSafe, catch_unwind};

type Clocks = crate::cmu::register::RegisterBlock;
type Bus<const I: u8> = BlockingQspi<'static, I, NoPads>;

#[derive(Clone, Copy)]
struct Blocks {
    reg: &'static RegisterBlock,
    clocks: &'static Clocks,
}

fn zeroed<T>() -> &'static T {
    // Register blocks of words: zero is a value of them.
    Box::leak(unsafe { Box::<T>::new_zeroed().assume_init() })
}

/// The register blocks of this thread, made known to the recorder.
fn blocks() -> Blocks {
    thread_local! {
        static BLOCKS: Blocks = Blocks { reg: zeroed(), clocks: zeroed() };
    }
    let b = BLOCKS.with(|b| *b);
    fn at<T>(cell: &T) -> usize {
        std::ptr::from_ref(cell) as usize
    }
    recorder::lay_out(
        at(b.reg),
        [at(&b.clocks.clock_qspi0), at(&b.clocks.clock_qspi1), at(&b.clocks.clock_qspi2), at(&b.clocks.clock_qspi3)],
    );
    b
}

/// Runs a call; its value where it is done.
fn caught<T>(f: impl FnOnce() -> Result<T, QspiError>) -> (How, Option<T>) {
    match catch_unwind(AssertUnwindSafe(f)) {
        Ok(Ok(value)) => (How::Number(0), Some(value)),
        Ok(Err(QspiError::Timeout)) => (How::Number(1), None),
        Ok(Err(QspiError::Unsupported)) => (How::Number(2), None),
        Err(payload) => {
            if let Some(Cut(n)) = payload.downcast_ref() {
                return (How::Number(*n), None);
            }
            let said = match (payload.downcast_ref::<&str>(), payload.downcast_ref::<String>()) {
                (Some(s), _) => (*s).to_string(),
                (_, Some(s)) => s.clone(),
                _ => String::from("?"),
            };
            (How::Panic(said), None)
        }
    }
}

fn work_mode(n: u32) -> WorkMode {
    match n {
        0 => WorkMode::Standard,
        1 => WorkMode::ThreeWire,
        2 => WorkMode::Dual,
        3 => WorkMode::DualIO,
        4 => WorkMode::Quad,
        5 => WorkMode::QuadIO,
        _ => WorkMode::Qpi,
    }
}

fn config(o: &Opening) -> QspiConfig {
    QspiConfig {
        freq: Hertz(o.freq),
        mode: [MODE_0, MODE_1, MODE_2, MODE_3][o.mode as usize],
        ctrl_mode: if o.master { CtrlMode::Master } else { CtrlMode::Slave },
        work_mode: work_mode(o.work_mode),
        bit_mode_en: o.bit_mode_en,
        lsb_first: o.lsb_first,
        cs_config: o.cs_config.map(|[polarity, level, pin]| CsConfig {
            polarity: if polarity == 0 { Polarity::IdleLow } else { Polarity::IdleHigh },
            level: if level == 0 { CsLevel::Low } else { CsLevel::High },
            pin: if pin == 0 { CsPin::Cs0 } else { CsPin::Cs1 },
        }),
    }
}

fn open_as<const I: u8>(o: &Opening) -> u32 {
    let b = blocks();
    let tree = ClockTree { pll_fra0: Hertz(o.pll_hz), osc_24m: Hertz(o.osc_hz) };
    let mut cmu = Cmu { reg: b.clocks };
    Bus::<I>::new(b.reg, NoPads, config(o), &tree, &mut cmu).sck_hz()
}

/// Opens a bus; its rate where it is done, else 0. Every instance above 3 is the same to the Rust.
pub fn open(o: &Opening) -> (How, u32) {
    let (how, rate) = caught(|| {
        Ok(match o.instance {
            0 => open_as::<0>(o),
            1 => open_as::<1>(o),
            2 => open_as::<2>(o),
            3 => open_as::<3>(o),
            _ => open_as::<4>(o),
        })
    });
    (how, rate.unwrap_or(0))
}

fn free_as<const I: u8>() {
    let b = blocks();
    let bus = Bus::<I>::unopened(b.reg, NoPads, 0);
    bus.free(&mut Cmu { reg: b.clocks });
}

/// Releases a bus. Every instance above 3 is the same to the Rust.
pub fn free(instance: u32) -> How {
    caught(|| {
        match instance {
            0 => free_as::<0>(),
            1 => free_as::<1>(),
            2 => free_as::<2>(),
            3 => free_as::<3>(),
            _ => free_as::<4>(),
        }
        Ok(())
    })
    .0
}

/// Makes one call on a bus of the given rate.
pub fn call(rate: u32, call: Call<'_>) -> How {
    let b = blocks();
    let mut bus = Bus::<0>::unopened(b.reg, NoPads, rate);
    caught(|| match call {
        Call::Write(words) => bus.write(words),
        Call::Read(words) => bus.read(words),
        Call::Transfer(read, write) => bus.transfer(read, write),
        Call::InPlace(words) => bus.transfer_in_place(words),
        Call::Flush => bus.flush(),
        Call::Mode(n) => bus.set_work_mode(work_mode(n)),
        Call::QuadRead { command, tclqv_ns, margin, data } => bus.read_quad(command, tclqv_ns, margin, data),
        Call::QuadWrite(command, data) => bus.write_quad(command, data),
        Call::DelayNs(ns) => bus.transaction(&mut [Operation::DelayNs(ns)]),
    })
    .0
}

/// `select_clock`: module divider, 1 for Cdr1 or 2 for Cdr2, its divider.
pub fn select_clock(pll_hz: u32, target: u32) -> (u8, u8, u8) {
    Bus::<0>::chosen(pll_hz, target)
}

/// `actual_sck`, which overflows its shift for Cdr1 above 31.
pub fn actual_sck(pll_hz: u32, mod_div: u8, kind: u8, div: u8) -> (How, u32) {
    let (how, rate) = caught(|| Ok(Bus::<0>::rate(pll_hz, mod_div, kind, div)));
    (how, rate.unwrap_or(0))
}

/// `dummy_bytes_for` of a bus of the given rate.
pub fn dummy_bytes_for(rate: u32, tclqv_ns: u32, margin: u8) -> u8 {
    Bus::<0>::unopened(blocks().reg, NoPads, rate).dummy_bytes_for(tclqv_ns, margin)
}
