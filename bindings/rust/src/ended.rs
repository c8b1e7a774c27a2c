//! How a call ends: its number and its counts.

use std::error::Error;
use std::fmt;

/// The number that a call gives.
#[derive(Clone, Copy, Debug, PartialEq, Eq, Hash)]
pub enum Number {
    /// 0: done.
    Done,
    /// 1: the unready poll with the limit's number in one wait.
    Timeout,
    /// 2: work mode QPI on a chip without it.
    Unsupported,
    /// 3: opening in SPI mode 1 or 3.
    SpiMode,
    /// 4: opening of an instance above 3.
    Instance,
    /// 5: opening in work mode QPI on a chip without it.
    Qpi,
    /// 6: a length above FFFFFF hex in one phase.
    Length,
    /// 7: limit 0.
    Limit,
    /// 8: a chain of records that is none, or a number that is no work mode.
    Chain,
    /// 9: a record's window outside the memory.
    Window,
    /// 10: log used up.
    Log,
    /// 11: answers used up.
    Answers,
    /// 12: no divider.
    Divider,
    /// 13: bytes that are no sheet.
    Sheet,
    /// 14: core rate 0 at an opening, or a delay of more than 2³² − 1 cycles.
    Cycles,
    /// 23: no eligible module clock at an opening: a PLL of 0, or of 3,200,000,032 Hz and more.
    NoClock,
    /// Any other: the library is proved to give none.
    Unknown(u32),
}

/// The known numbers in order, each with its name and its meaning.
const MEANINGS: &[(u32, Number, &str)] = &[
    (0, Number::Done, "done"),
    (1, Number::Timeout, "timeout"),
    (2, Number::Unsupported, "unsupported"),
    (3, Number::SpiMode, "SPI mode 1 or 3"),
    (4, Number::Instance, "instance above 3"),
    (5, Number::Qpi, "QPI at opening on a chip without it"),
    (6, Number::Length, "length above FFFFFF hex in one phase"),
    (7, Number::Limit, "limit 0"),
    (8, Number::Chain, "no chain, or no work mode"),
    (9, Number::Window, "window outside memory"),
    (10, Number::Log, "log used up"),
    (11, Number::Answers, "answers used up"),
    (12, Number::Divider, "no divider"),
    (13, Number::Sheet, "no sheet"),
    (14, Number::Cycles, "core rate 0 at opening, or a delay above FFFFFFFF hex cycles"),
    (23, Number::NoClock, "no eligible module clock at opening"),
];

impl Number {
    /// The number itself.
    pub fn get(self) -> u32 {
        if let Number::Unknown(n) = self {
            return n;
        }
        let found = MEANINGS.iter().find(|&&(_, known, _)| known == self);
        found.map_or(u32::MAX, |&(n, ..)| n)
    }

    /// What it means, in a few words.
    pub fn meaning(self) -> &'static str {
        let found = MEANINGS.iter().find(|&&(_, known, _)| known == self);
        found.map_or("unknown", |&(.., meaning)| meaning)
    }

    /// Whether it says that the call was refused before anything was done: 3 to 9, 12 to 14, and 23.
    pub fn is_refusal(self) -> bool {
        matches!(self.get(), 3..=9 | 12..=14 | 23)
    }
}

impl From<u32> for Number {
    fn from(n: u32) -> Self {
        let found = MEANINGS.iter().find(|&&(known, ..)| known == n);
        found.map_or(Number::Unknown(n), |&(_, number, _)| number)
    }
}

impl fmt::Display for Number {
    fn fmt(&self, f: &mut fmt::Formatter) -> fmt::Result {
        write!(f, "{} ({})", self.meaning(), self.get())
    }
}

impl Error for Number {}

/// The counts of a call, as the library writes them.
#[derive(Clone, Copy, Debug, Default, PartialEq, Eq, Hash)]
#[repr(C)]
pub struct Counts {
    /// Entries made in the log, two words each.
    pub entries: u64,
    /// Answers taken.
    pub taken: u64,
    /// Reads made to test readiness.
    pub polls: u64,
    /// The most unready polls in one wait.
    pub longest: u64,
}

const _: () = assert!(size_of::<Counts>() == 4 * size_of::<u64>(), "the library writes these counts and nothing more");

/// How a call ended. It is shown as the last line that a sheet prints.
#[must_use = "a call may have been refused or cut short"]
#[derive(Clone, Copy, Debug, PartialEq, Eq, Hash)]
pub struct Ended {
    /// The number that it gave.
    pub number: Number,
    /// Its counts: all 0 where it was refused.
    pub counts: Counts,
}

impl Ended {
    /// The counts if the call is done, else its number.
    pub fn done(self) -> Result<Counts, Number> {
        match self.number {
            Number::Done => Ok(self.counts),
            number => Err(number),
        }
    }
}

impl fmt::Display for Ended {
    fn fmt(&self, f: &mut fmt::Formatter) -> fmt::Result {
        let Counts { entries, taken, polls, longest } = self.counts;
        let number = self.number.get();
        write!(f, "end {number} {entries} {taken} {polls} {longest}")
    }
}

#[cfg(test)]
mod tests {
    use super::*;

    #[test]
    fn every_number_is_itself() {
        for &(n, number, meaning) in MEANINGS {
            assert_eq!((Number::from(n), number.get(), number.meaning()), (number, n, meaning));
        }
        assert!(MEANINGS.windows(2).all(|two| two[0].0 < two[1].0));
        assert_eq!(Number::from(0), Number::Done);
        assert_eq!(Number::from(13), Number::Sheet);
        assert_eq!(Number::from(14), Number::Cycles);
        assert_eq!(Number::from(23), Number::NoClock);
        for n in (15..=22).chain([24, u32::MAX]) {
            assert_eq!(Number::from(n), Number::Unknown(n));
            assert_eq!(Number::from(n).get(), n);
        }
    }

    #[test]
    fn refusals() {
        let refusals: Vec<u32> = (0..40).filter(|&n| Number::from(n).is_refusal()).collect();
        assert_eq!(refusals, [3, 4, 5, 6, 7, 8, 9, 12, 13, 14, 23]);
    }

    #[test]
    fn shown() {
        assert_eq!(Number::Log.to_string(), "log used up (10)");
        assert_eq!(Number::NoClock.to_string(), "no eligible module clock at opening (23)");
        assert_eq!(Number::Unknown(99).to_string(), "unknown (99)");
        let counts = Counts { entries: 15, taken: 8, polls: 3, longest: 0 };
        let ended = |number| Ended { number, counts };
        assert_eq!(ended(Number::Done).to_string(), "end 0 15 8 3 0");
        assert_eq!(ended(Number::Done).done(), Ok(counts));
        assert_eq!(ended(Number::Timeout).done(), Err(Number::Timeout));
    }
}
