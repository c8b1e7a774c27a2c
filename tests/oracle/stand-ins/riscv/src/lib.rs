//! Stands for the crate riscv: a delay that is recorded.

pub mod asm {
    pub fn delay(cycles: u32) {
        recorder::delay(cycles)
    }
}
