//! Stands for the crate embedded-hal 1.0: the items of `spi` that the source names.
//!
//! The numbers of `Polarity` and `Phase` are those that register.rs's getters give them.

pub mod spi {
    #[derive(Clone, Copy, Debug, PartialEq, Eq)]
    pub enum Polarity {
        IdleLow,
        IdleHigh,
    }

    #[derive(Clone, Copy, Debug, PartialEq, Eq)]
    pub enum Phase {
        CaptureOnFirstTransition,
        CaptureOnSecondTransition,
    }

    #[derive(Clone, Copy, Debug, PartialEq, Eq)]
    pub struct Mode {
        pub polarity: Polarity,
        pub phase: Phase,
    }

    const fn mode(polarity: Polarity, phase: Phase) -> Mode {
        Mode { polarity, phase }
    }

    pub const MODE_0: Mode = mode(Polarity::IdleLow, Phase::CaptureOnFirstTransition);
    pub const MODE_1: Mode = mode(Polarity::IdleLow, Phase::CaptureOnSecondTransition);
    pub const MODE_2: Mode = mode(Polarity::IdleHigh, Phase::CaptureOnFirstTransition);
    pub const MODE_3: Mode = mode(Polarity::IdleHigh, Phase::CaptureOnSecondTransition);

    #[derive(Clone, Copy, Debug, PartialEq, Eq)]
    pub enum ErrorKind {
        Other,
    }

    pub trait Error {
        fn kind(&self) -> ErrorKind;
    }

    pub trait ErrorType {
        type Error: Error;
    }

    pub enum Operation<'a, Word> {
        Read(&'a mut [Word]),
        Write(&'a [Word]),
        Transfer(&'a mut [Word], &'a [Word]),
        TransferInPlace(&'a mut [Word]),
        DelayNs(u32),
    }

    pub trait SpiBus<Word = u8>: ErrorType {
        fn read(&mut self, words: &mut [Word]) -> Result<(), Self::Error>;
        fn write(&mut self, words: &[Word]) -> Result<(), Self::Error>;
        fn transfer(&mut self, read: &mut [Word], write: &[Word]) -> Result<(), Self::Error>;
        fn transfer_in_place(&mut self, words: &mut [Word]) -> Result<(), Self::Error>;
        fn flush(&mut self) -> Result<(), Self::Error>;
    }

    pub trait SpiDevice<Word = u8>: ErrorType {
        fn transaction(&mut self, operations: &mut [Operation<'_, Word>]) -> Result<(), Self::Error>;
    }
}
