//! A little model of the driver: what a run reads and enters, so that the answers of a case are plausible.

use crate::rng::Rng;

const START: u32 = 1 << 31;
const SENT_COUNT: u32 = 0xFF << 16;
const RECEIVED_COUNT: u32 = 0xFF;
/// The most bytes of one phase that are walked; a longer one runs out of answers.
const WALKED: usize = 600;
/// The entries of a chain after which no further record is walked.
const LONG: usize = 5000;

/// What a chain runs on: the bus's rate, and whether the chip has QPI.
#[derive(Clone, Copy)]
pub struct Bus {
    pub rate: u32,
    pub qpi: bool,
}

/// A run under way: the answers it takes and the entries it makes. A step that gives false has ended the run.
pub struct Walk<'a> {
    pub rng: &'a mut Rng,
    pub limit: usize,
    /// How many waits of a hundred have an unready poll.
    unready: usize,
    /// The most unready polls of a wait that are about as many as the limit.
    about: usize,
    /// The most bytes of one phase that are walked.
    pub walked: usize,
    pub answers: Vec<u32>,
    pub entries: usize,
}

impl<'a> Walk<'a> {
    pub fn new(rng: &'a mut Rng) -> Self {
        let limit = rng.pick(&[1, 1, 1, 1, 2, 2, 2, 2, 3, 3, 3, 3, 5, 5, 5, 5, 100, 100, 100, 100_000, 0]);
        let unready = rng.pick(&[0, 0, 10, 30]);
        Walk { rng, limit, unready, about: 100_001, walked: WALKED, answers: Vec::new(), entries: 0 }
    }

    /// A sheet has no room for 100,000 answers, but any limit.
    pub fn of_sheet(rng: &'a mut Rng) -> Self {
        let mut walk = Walk::new(rng);
        if walk.limit == 100_000 {
            walk.limit = walk.rng.pick(&[4096, 100_000, 1 << 31, 0xFFFF_FFFF]);
        }
        walk.about = 200;
        walk
    }

    /// Register steps: a read and a write each.
    pub fn changes(&mut self, n: usize) -> bool {
        self.answers.extend((0..n).map(|_| self.rng.word()));
        self.entries += 2 * n;
        true
    }

    /// A change of 038, whose word has bit 31 set three times of four.
    fn control(&mut self) -> bool {
        let bit = self.rng.pick(&[0, 1, 1, 1]) << 31;
        let word = self.rng.word() & 0x7FFF_FFFF | bit;
        self.answers.push(word);
        self.entries += 2;
        true
    }

    pub fn delays(&mut self, n: usize) -> bool {
        self.entries += n;
        true
    }

    /// Polls that have `unready` in the bits of `mask`, none, a few or about as many as the limit; then `ready` there.
    fn wait(&mut self, mask: u32, ready: u32, unready: u32) -> bool {
        let (few, about) = (1 + self.rng.below(3), self.rng.near(self.limit as u32) as usize);
        let about = if about < 200 || (about <= self.about && self.rng.once_in(20)) { about } else { few };
        let n = if self.rng.below(100) < self.unready { self.rng.pick(&[few, about]) } else { 0 };
        let done = n < self.limit;
        let polls = n.min(self.limit) + usize::from(done);
        self.answers.extend((0..polls).map(|i| self.rng.word() & !mask | if i < n { unready } else { ready }));
        self.entries += polls;
        done
    }

    pub fn flush(&mut self) -> bool {
        self.wait(START, 0, START)
    }

    /// A wait for space or for received bytes, and the bytes moved then: how many, or 0 after a timeout.
    fn portion(&mut self, left: usize, receives: bool) -> usize {
        let count = self.rng.pick(&[1, 2, 32, 63, 64, 64, 64]);
        let more = self.rng.pick(&[count, 65, 128, 255]);
        let full = self.rng.pick(&[64, 65, 128, 255]);
        let (done, n) = match receives {
            true => (self.wait(RECEIVED_COUNT, more, 0), left.min(more as usize)),
            false => (self.wait(SENT_COUNT, (64 - count) << 16, full << 16), left.min(count as usize)),
        };
        if !done {
            return 0;
        }
        if receives {
            self.answers.extend((0..n).map(|_| self.rng.u32()));
        }
        self.entries += n;
        n
    }

    pub fn phase(&mut self, length: usize, receives: bool) -> bool {
        if length == 0 {
            return true;
        }
        self.changes(3);
        self.control();
        self.changes(1);
        self.delays(1);
        let mut left = length.min(self.walked);
        while left > 0 {
            let n = self.portion(left, receives);
            if n == 0 {
                return false;
            }
            left -= n;
        }
        let used = 1 + self.rng.below(255) as u32;
        (receives || self.wait(SENT_COUNT, 0, used << 16)) && self.flush()
    }

    pub fn transfer(&mut self, read: usize, write: usize) -> bool {
        self.phase(write, false) && self.phase(read, true)
    }

    pub fn in_place(&mut self, length: usize) -> bool {
        let length = length.min(self.walked);
        let mut parts = (0..length).step_by(256).map(|at| (length - at).min(256));
        parts.all(|n| self.transfer(n, n))
    }

    pub fn mode(&mut self, mode: usize, qpi: bool) -> bool {
        self.flush() && (mode < 6 || qpi) && self.control() && (mode == 6 || self.changes(1))
    }

    pub fn quad(&mut self, command: usize, data: usize, receives: bool) -> bool {
        if !(self.phase(command, false) && self.mode(4, true)) {
            return false;
        }
        let done = self.phase(data, receives);
        self.mode(0, true) && done
    }

    /// A wait for START with so many polls, only the last of them ready.
    pub fn polls(&mut self, n: usize) {
        self.answers.extend((1..=n).map(|i| self.rng.word() & !START | if i < n { START } else { 0 }));
        self.entries += n;
    }

    pub fn chain(&mut self, words: &[u32], bus: Bus) -> bool {
        let (mut at, mut done) = (1, true);
        while let (true, Some(r)) = (done && self.entries < LONG, words.chunks_exact(8).nth(at - 1)) {
            done = self.record(r, bus);
            let next = r[7] as usize;
            // A damaged chain may not go on; the walk then ends.
            at = if next > at { next } else { words.len() + 1 };
        }
        done
    }

    fn record(&mut self, r: &[u32], bus: Bus) -> bool {
        let [f1, f2, f4, f6] = [1, 2, 4, 6].map(|i| r[i] as usize);
        match r[0] {
            1 | 2 => self.phase(f2, r[0] == 2),
            3 => self.transfer(f2, f4),
            4 => self.in_place(f2),
            6 => self.flush(),
            7 => self.mode(f1, bus.qpi),
            8 => self.quad(frame(f2, [bus.rate, r[3], r[4]]), f6, true),
            9 => self.quad(f2, f6, false),
            _ => self.delays(1),
        }
    }
}

/// The length of the frame of a quad read: its command's bytes and the dummies for a rate, tclqv and margin.
pub fn frame(command: usize, [rate, tclqv, margin]: [u32; 3]) -> usize {
    let bits = (u64::from(rate) * u64::from(tclqv)).div_ceil(1_000_000_000);
    let sum = bits.div_ceil(8) % 256 + u64::from(margin);
    let dummies = if bits == 0 { sum.min(8) } else { sum.clamp(1, 8) } as usize;
    command.min(16 - dummies) + dummies
}
