//! The agreed departures from the Rust: cases for which another answer of the port is due than the Rust's.

use crate::delays::{Delay, delayed, delays};
use crate::due::{CORE_RATE, NO_CLOCK, refusal};
use crate::leaves::{left, words};

/// What is asked: the case line, and the number of the refusal that is due, or 0.
#[derive(Clone, Copy)]
pub struct Asked<'a> {
    pub line: &'a str,
    pub refused: u32,
}

pub struct Departure {
    pub name: &'static str,
    /// Which cases it is about.
    about: fn(Asked) -> bool,
    /// The whole answer that is due then, by what was asked and what the Rust answered.
    answer: fn(Asked, &str) -> String,
}

/// A row each. The first that is about a case decides.
const DEPARTURES: [Departure; 5] = [
    Departure {
        name: "a core rate of 0, or a delay of too many cycles, the port refuses",
        about: |asked| asked.refused == CORE_RATE,
        answer: |asked, _| refusal(asked.line, asked.refused),
    },
    Departure {
        name: "an opening without an eligible module clock, the port refuses",
        about: |asked| asked.refused == NO_CLOCK,
        answer: |asked, _| refusal(asked.line, asked.refused),
    },
    Departure {
        name: "the Rust panics or has no form, the port refuses",
        about: |asked| asked.refused > 0,
        answer: |asked, _| refusal(asked.line, asked.refused),
    },
    Departure {
        name: "a mode leaves QPI, its word for 038 has bit 31 clear",
        about: |asked| words(asked.line).contains(&true),
        answer: |asked, oracle| left(oracle, &words(asked.line)),
    },
    Departure {
        name: "a delay outside a sheet, its cycles are by the core rate",
        about: |asked| !delays(asked.line).is_empty(),
        answer: |asked, oracle| delayed(oracle, delays(asked.line).into_iter().map(Delay::cycles)),
    },
];

/// The departure that is about a case, and the answer that is due by it.
pub fn departure(asked: Asked, oracle: &str) -> Option<(&'static str, String)> {
    let departure = DEPARTURES.iter().find(|departure| (departure.about)(asked))?;
    Some((departure.name, (departure.answer)(asked, oracle)))
}
