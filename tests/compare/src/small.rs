//! Runs of small records, each poll answered in every way.

use crate::choices::Choices;
use crate::walk::{Bus, frame};

pub type Record = [u32; 8];

/// What a poll waits for.
#[derive(Clone, Copy)]
enum Wait {
    Space,
    Empty,
    Received,
    Start,
}

/// A run under way. A step that gives nothing has ended it.
pub struct Run<'a> {
    choices: &'a mut Choices,
    pub bus: Bus,
    pub limit: usize,
    /// How many further polls are answered in every way; the others are ready.
    pub polls: usize,
    pub answers: Vec<u32>,
    pub entries: usize,
}

impl<'a> Run<'a> {
    pub fn new(choices: &'a mut Choices, bus: Bus, limit: usize, polls: usize) -> Self {
        Run { choices, bus, limit, polls, answers: Vec::new(), entries: 0 }
    }

    /// A word for the next read or byte got, no two alike.
    fn any(&self) -> u32 {
        (self.answers.len() as u32 + 1).wrapping_mul(0x9E37_79B9)
    }

    /// Register steps: a read and a write each.
    fn changes(&mut self, n: usize) {
        (0..n).for_each(|_| self.answers.push(self.any()));
        self.entries += 2 * n;
    }

    /// One poll with `left` bytes to go: how many of them may move now, 0 where it is unready.
    fn poll(&mut self, wait: Wait, left: usize) -> usize {
        let portions = matches!(wait, Wait::Space | Wait::Received) && left > 1;
        let ways: &[usize] = match (self.polls, portions) {
            (0, _) => &[usize::MAX],
            (_, true) => &[usize::MAX, 0, 1],
            (_, false) => &[usize::MAX, 0],
        };
        self.polls = self.polls.saturating_sub(1);
        let ready = self.choices.pick(ways).min(left);
        let word = self.word(wait, ready, ready == left);
        self.answers.push(word);
        self.entries += 1;
        ready
    }

    /// An answer that lets so many bytes move, no more or, of all that are left, as many as there can be.
    fn word(&self, wait: Wait, ready: usize, all: bool) -> u32 {
        let (n, other) = (ready as u32, self.answers.len() % 2 == 1);
        let (shift, mask, value) = match (wait, n) {
            (Wait::Space, 0) => (16, 0xFF, if other { 255 } else { 64 }),
            (Wait::Space, _) => (16, 0xFF, if all && other { 0 } else { 64 - n }),
            (Wait::Empty, 0) => (16, 0xFF, if other { 255 } else { 1 }),
            (Wait::Empty, _) => (16, 0xFF, 0),
            (Wait::Received, _) => (0, 0xFF, if n > 0 && all && other { 255 } else { n }),
            (Wait::Start, _) => (31, 1, u32::from(n == 0)),
        };
        self.any() & !(mask << shift) | value << shift
    }

    fn wait(&mut self, wait: Wait, left: usize) -> Option<usize> {
        (0..self.limit).map(|_| self.poll(wait, left)).find(|&ready| ready > 0)
    }

    fn phase(&mut self, length: usize, receives: bool) -> Option<()> {
        if length == 0 {
            return Some(());
        }
        self.changes(5);
        self.entries += 1;
        let mut left = length;
        while left > 0 {
            let n = self.wait(if receives { Wait::Received } else { Wait::Space }, left)?;
            (0..if receives { n } else { 0 }).for_each(|_| self.answers.push(self.any()));
            self.entries += n;
            left -= n;
        }
        if !receives {
            self.wait(Wait::Empty, 1)?;
        }
        self.wait(Wait::Start, 1).map(|_| ())
    }

    fn mode(&mut self, mode: u32) -> Option<()> {
        self.wait(Wait::Start, 1)?;
        if mode == 6 && !self.bus.qpi {
            return None;
        }
        self.changes(if mode == 6 { 1 } else { 2 });
        Some(())
    }

    fn quad(&mut self, command: usize, data: usize, receives: bool) -> Option<()> {
        self.phase(command, false)?;
        self.mode(4)?;
        let done = self.phase(data, receives);
        self.mode(0)?;
        done
    }

    fn record(&mut self, r: &Record) -> Option<()> {
        let [f2, f4, f6] = [2, 4, 6].map(|i| r[i] as usize);
        match r[0] {
            1 | 2 => self.phase(f2, r[0] == 2),
            3 => self.phase(f4, false).and_then(|()| self.phase(f2, true)),
            4 => self.phase(f2, false).and_then(|()| self.phase(f2, true)),
            6 => self.wait(Wait::Start, 1).map(|_| ()),
            7 => self.mode(r[1]),
            8 => self.quad(frame(f2, [self.bus.rate, r[3], r[4]]), f6, true),
            9 => self.quad(f2, f6, false),
            _ => {
                self.entries += 1;
                Some(())
            }
        }
    }

    /// A sound chain whose nexts are 0 or the following record's number.
    pub fn chain(&mut self, records: &[Record]) -> Option<()> {
        for r in records {
            self.record(r)?;
            if r[7] == 0 {
                break;
            }
        }
        Some(())
    }
}
