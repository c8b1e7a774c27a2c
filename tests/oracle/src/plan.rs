//! Answers made up as the driver asks for them, so that a case goes the way it is meant to.

use crate::splitmix64::splitmix64;
use recorder::{Asked, Entry, Record};

/// Pseudo-random numbers from a seed.
#[derive(Clone)]
pub struct Random(pub u64);

impl Random {
    pub fn number(&mut self) -> u64 {
        splitmix64(&mut self.0)
    }

    pub fn word(&mut self) -> u32 {
        self.number() as u32
    }

    /// A number below `n`.
    pub fn below(&mut self, n: u64) -> u64 {
        self.number() % n
    }
}

/// What a wait is for.
#[derive(Clone, Copy, PartialEq, Eq)]
enum Cause {
    Space,
    Received,
    Empty,
    Start,
}

/// The unready polls of each wait in turn (the last again and again), and the most bytes that a portion lets go.
#[derive(Clone)]
pub struct Plan {
    pub unready: Vec<u64>,
    pub portion: u32,
    random: Random,
    /// Waits begun, and what the last is for.
    waits: usize,
    cause: Cause,
}

impl Plan {
    pub fn new(unready: &[u64], portion: u32, seed: u64) -> Self {
        Plan { unready: unready.to_vec(), portion, random: Random(seed), waits: 0, cause: Cause::Start }
    }

    /// The answer that the plan has for a read or a byte got.
    pub fn answer(&mut self, record: &Record, asked: Asked) -> u32 {
        let word = self.random.word();
        let Some(before) = asked.poll else {
            return word;
        };
        if before == 0 {
            self.cause = cause(record, asked.place);
            self.waits += 1;
        }
        let due = self.unready.get(self.waits - 1).or(self.unready.last());
        self.poll(before >= due.copied().unwrap_or(0), word)
    }

    /// A word that is ready or unready for its wait and otherwise as it comes.
    fn poll(&mut self, ready: bool, word: u32) -> u32 {
        let portion = 1 + self.random.below(u64::from(self.portion)) as u32;
        let count = |n: u32, place: u32| (word & !(0xFF << place)) | ((n & 0xFF) << place);
        match (self.cause, ready) {
            (Cause::Space, true) => count(64 - portion.min(64), 16),
            (Cause::Space, false) => count(64 + self.random.below(192) as u32, 16),
            (Cause::Empty, true) => count(0, 16),
            (Cause::Empty, false) => count(1 + self.random.below(255) as u32, 16),
            (Cause::Received, true) => count(portion.min(255), 0),
            (Cause::Received, false) => count(0, 0),
            (Cause::Start, true) => word & !(1 << 31),
            (Cause::Start, false) => word | 1 << 31,
        }
    }
}

/// What a poll waits for, from what the phase has done since it was programmed.
fn cause(record: &Record, place: u32) -> Cause {
    if place == 0x008 {
        return Cause::Start;
    }
    let written = |place: u32| move |e: &Entry| e.op == 2 && e.place == place;
    let log = &record.log;
    let at = log.iter().rposition(written(0x034)).unwrap_or(0);
    let length = log.get(at).map_or(0, |e| e.value & 0xFF_FFFF) as usize;
    if length == 0 {
        return Cause::Received;
    }
    let sent = log[at..].iter().filter(|e| e.op == 3).count();
    if sent < length { Cause::Space } else { Cause::Empty }
}
