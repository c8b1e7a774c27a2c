//! The driver's source, with stand-ins for the modules of its crate that are not at hand.
#![allow(dead_code, unused_imports, clippy::all)]

pub mod calls;

/// Stands for the crate's cmu module: the clock tree's two rates and the register block.
pub mod cmu {
    #[rustfmt::skip]
    pub mod register;

    use embedded_time::rate::Hertz;
    use register::RegisterBlock;

    pub struct ClockTree {
        pub pll_fra0: Hertz,
        pub osc_24m: Hertz,
    }

    pub struct Cmu<'a> {
        pub reg: &'a RegisterBlock,
    }

    impl Cmu<'_> {
        pub fn register_block(&self) -> &RegisterBlock {
            self.reg
        }
    }
}

pub mod qspi {
    #[rustfmt::skip]
    pub mod blocking;
    #[rustfmt::skip]
    pub mod config;
    #[rustfmt::skip]
    pub mod error;
    #[rustfmt::skip]
    pub mod register;

    /// Stands for qspi/bus.rs.
    pub mod bus {
        pub trait QuadSpiBus: embedded_hal::spi::ErrorType {
            fn read_quad(
                &mut self,
                command: &[u8],
                tclqv_ns: u32,
                margin: u8,
                data: &mut [u8],
            ) -> Result<(), Self::Error>;
            fn write_quad(&mut self, command: &[u8], data: &[u8]) -> Result<(), Self::Error>;
        }
    }

    /// Stands for qspi/instance.rs.
    pub mod instance {
        use super::register::RegisterBlock;

        pub struct Qspi<const I: u8> {
            pub reg: *const RegisterBlock,
        }

        impl<const I: u8> Qspi<I> {
            pub fn __new(reg: *const RegisterBlock) -> Self {
                Qspi { reg }
            }
        }
    }

    /// Stands for qspi/pad.rs: no pads.
    pub mod pad {
        pub trait QspiPads<const I: u8> {}

        pub struct NoPads;

        impl<const I: u8> QspiPads<I> for NoPads {}
    }
}
