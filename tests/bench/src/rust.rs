//! The Rust: the published driver over the lean cells and over the oracle's recorder, and sheets over the former.

use crate::chain::{self, Record};
use crate::library::{Ended, Lent};
use crate::sheet::Sheet;
use recorder::Counts;
use recorder::call::{Call, How, Opening};

fn number(how: &How) -> u32 {
    match how {
        How::Number(n) => *n,
        How::Panic(said) => panic!("{said}"),
    }
}

/// What the oracle's recorder is given.
#[derive(Clone, Copy)]
pub struct Answered {
    pub limit: u32,
    /// The entries that the log may hold.
    pub room: usize,
    pub answers: &'static [u32],
}

/// Runs `f` over the lean cells.
pub fn lean(l: &mut Lent, f: impl FnOnce() -> How) -> Ended {
    // The log and the answers are lent for longer than the call.
    unsafe { recorder::begin(l.limit, l.log, l.answers) };
    let how = f();
    (number(&how), recorder::end())
}

/// Runs `f` over the oracle's recorder, which keeps a log of its own and the answers that were taken.
pub fn recorded(a: Answered, f: impl FnOnce() -> oracle_recorder::call::How) -> Ended {
    let mut rest = a.answers.iter();
    let source = Box::new(move |_: &oracle_recorder::Record, _| rest.next().copied());
    oracle_recorder::begin_from(u64::from(a.limit), a.room, source);
    let how = f();
    let r = oracle_recorder::end();
    let number = match how {
        oracle_recorder::call::How::Number(n) => n,
        oracle_recorder::call::How::Panic(said) => panic!("{said}"),
    };
    let (polls, longest) = (r.polls as usize, r.longest as u32);
    (number, Counts { entries: r.log.len(), taken: r.answers.len(), polls, longest })
}

/// As `library::open`, of either recorder's own type.
macro_rules! opening {
    ($of:path, $rates:expr) => {{
        use $of as Of;
        let [pll_hz, osc_hz, freq] = $rates;
        Of {
            instance: 0,
            mode: 0,
            master: true,
            work_mode: 0,
            bit_mode_en: false,
            lsb_first: false,
            cs_config: None,
            freq,
            pll_hz,
            osc_hz,
        }
    }};
}

pub fn open_lean(l: &mut Lent, rates: [u32; 3]) -> Ended {
    lean(l, || lean_driver::calls::open(&opening!(Opening, rates)).0)
}

pub fn open_recorded(a: Answered, rates: [u32; 3]) -> Ended {
    recorded(a, || d13x::calls::open(&opening!(oracle_recorder::call::Opening, rates)).0)
}

/// What the oracle's chains call.
pub mod run {
    use super::{Call, How};

    /// The chip with QPI; no sheet here asks for the other.
    pub fn call(_qpi: bool, rate: u32, c: Call<'_>) -> How {
        lean_driver::calls::call(rate, c)
    }
}

/// A sheet taken apart and its chain checked, as the oracle does it.
pub fn opened(bytes: &[u8]) -> Option<(Sheet, Vec<Record>)> {
    let s = Sheet::read(bytes)?;
    let chain = chain::chain(&s.records, chain::OF_SHEETS, bytes.len() - s.memory)?;
    Some((s, chain))
}

/// A sheet over the lean cells, its chain called record by record.
pub fn sheet(log: &mut [u32], bytes: &mut [u8]) -> Ended {
    let (s, chain) = opened(bytes).expect("no sheet here is refused");
    let mut lent = Lent::new(s.limit, log, &s.answers);
    let memory = &mut bytes[s.memory..];
    lean(&mut lent, || chain::run(&chain, s.qpi, s.rate, memory))
}
