//! A small deterministic source of numbers.

use crate::splitmix64::splitmix64;

pub struct Rng(pub u64);

impl Rng {
    fn u64(&mut self) -> u64 {
        splitmix64(&mut self.0)
    }

    /// A number below `n`, which is not 0.
    pub fn below(&mut self, n: usize) -> usize {
        (self.u64() % n as u64) as usize
    }

    pub fn once_in(&mut self, n: usize) -> bool {
        self.below(n) == 0
    }

    pub fn pick<T: Copy>(&mut self, from: &[T]) -> T {
        from[self.below(from.len())]
    }

    pub fn u32(&mut self) -> u32 {
        self.u64() as u32
    }

    /// A number of any size up to 32 bits.
    pub fn sized(&mut self) -> u32 {
        self.u32() >> self.below(32)
    }

    /// `n`, one less or one more.
    pub fn near(&mut self, n: u32) -> u32 {
        let (less, more) = (n.saturating_sub(1), n.saturating_add(1));
        self.pick(&[less, n, more])
    }

    /// A register word: often 0 or all ones.
    pub fn word(&mut self) -> u32 {
        let any = self.u32();
        self.pick(&[0, u32::MAX, any, any])
    }
}
