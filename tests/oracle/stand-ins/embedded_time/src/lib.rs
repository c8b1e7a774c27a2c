//! Stands for the crate embedded-time: a rate in Hz.

pub mod rate {
    #[derive(Clone, Copy, Debug, PartialEq, Eq)]
    pub struct Hertz(pub u32);
}
