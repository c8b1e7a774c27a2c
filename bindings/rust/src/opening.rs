//! The configuration of a bus, and the calls that take one of its types. The names are those of the Rust driver.

use crate::by_number::{self, Lent};
use crate::ended::{Ended, Number};

/// The work mode of a bus.
#[derive(Clone, Copy, Debug, Default, PartialEq, Eq, Hash)]
#[repr(u32)]
pub enum WorkMode {
    /// 1-bit data transfer.
    #[default]
    Standard = 0,
    /// 1-bit bidirectional (half-duplex).
    ThreeWire = 1,
    /// 2-bit data only.
    Dual = 2,
    /// 2-bit address and data.
    DualIO = 3,
    /// 4-bit data only.
    Quad = 4,
    /// 4-bit address and data.
    QuadIO = 5,
    /// 4-bit command, address and data. Only some chips have it.
    Qpi = 6,
}

impl WorkMode {
    /// Every mode, by its number.
    pub const ALL: [WorkMode; 7] = [
        WorkMode::Standard,
        WorkMode::ThreeWire,
        WorkMode::Dual,
        WorkMode::DualIO,
        WorkMode::Quad,
        WorkMode::QuadIO,
        WorkMode::Qpi,
    ];

    /// The mode's number, 0 to 6.
    pub fn number(self) -> u32 {
        self as u32
    }

    /// The mode of a number, if it has one.
    pub fn from_number(n: u32) -> Option<Self> {
        Self::ALL.get(n as usize).copied()
    }
}

/// The SPI mode. An opening takes modes 0 and 2 only, and refuses the others by 3.
#[derive(Clone, Copy, Debug, Default, PartialEq, Eq, Hash)]
pub enum SpiMode {
    /// Idle low, captured on the first transition.
    #[default]
    Mode0,
    /// Idle low, captured on the second transition.
    Mode1,
    /// Idle high, captured on the first transition.
    Mode2,
    /// Idle high, captured on the second transition.
    Mode3,
}

/// Who drives the clock.
#[derive(Clone, Copy, Debug, Default, PartialEq, Eq, Hash)]
pub enum CtrlMode {
    /// The other side does.
    Slave,
    /// The controller does.
    #[default]
    Master,
}

/// The level at which a line idles.
#[derive(Clone, Copy, Debug, PartialEq, Eq, Hash)]
pub enum Polarity {
    /// Low.
    IdleLow,
    /// High.
    IdleHigh,
}

/// The level of the chip select.
#[derive(Clone, Copy, Debug, PartialEq, Eq, Hash)]
pub enum CsLevel {
    /// Low.
    Low,
    /// High.
    High,
}

/// The pin of the chip select.
#[derive(Clone, Copy, Debug, PartialEq, Eq, Hash)]
pub enum CsPin {
    /// Pin 0.
    Cs0,
    /// Pin 1.
    Cs1,
}

/// The chip-select record.
#[derive(Clone, Copy, Debug, PartialEq, Eq, Hash)]
pub struct CsConfig {
    /// The level at which it idles.
    pub polarity: Polarity,
    /// Its level.
    pub level: CsLevel,
    /// Its pin.
    pub pin: CsPin,
}

/// The configuration of a bus.
#[derive(Clone, Copy, Debug, PartialEq, Eq, Hash)]
pub struct Config {
    /// The target rate in Hz, taken as 100,000 to 100,000,000.
    pub freq: u32,
    /// The SPI mode.
    pub mode: SpiMode,
    /// Master or slave.
    pub ctrl_mode: CtrlMode,
    /// The work mode.
    pub work_mode: WorkMode,
    /// Bit mode is enabled.
    pub bit_mode_en: bool,
    /// The least significant bit goes first.
    pub lsb_first: bool,
    /// The chip-select record, if there is one.
    pub cs_config: Option<CsConfig>,
}

impl Default for Config {
    /// 10 MHz, mode 0, master, Standard, with a chip-select record.
    fn default() -> Self {
        let cs = CsConfig { polarity: Polarity::IdleHigh, level: CsLevel::Low, pin: CsPin::Cs0 };
        Config { freq: 10_000_000, cs_config: Some(cs), ..Config::nor_flash() }
    }
}

impl Config {
    /// For a single-line SPI-NOR bus: 100 MHz, no chip-select record.
    pub const fn nor_flash() -> Self {
        Config {
            freq: 100_000_000,
            mode: SpiMode::Mode0,
            ctrl_mode: CtrlMode::Master,
            work_mode: WorkMode::Standard,
            bit_mode_en: false,
            lsb_first: false,
            cs_config: None,
        }
    }

    /// For a single-line SPI-NAND bus: the same.
    pub const fn nand_flash() -> Self {
        Self::nor_flash()
    }
}

/// What an opening is asked for.
#[derive(Clone, Copy, Debug, PartialEq, Eq, Hash)]
pub struct Opening {
    /// The instance, 0 to 3; another is refused by 4.
    pub instance: u32,
    /// The chip has QPI.
    pub qpi: bool,
    /// The rate that the module clock is divided from; 0, and 3,200,000,032 and more, are refused by 23.
    pub pll_hz: u32,
    /// The oscillator's rate.
    pub osc_hz: u32,
    /// The core rate in Hz, which the opened bus keeps; 0 is refused by 14.
    pub core_hz: u32,
    /// The configuration.
    pub config: Config,
}

impl Opening {
    fn numbered(&self) -> by_number::Opening {
        let Config { mode, .. } = self.config;
        let cs = |cs: CsConfig| [cs.polarity == Polarity::IdleHigh, cs.level == CsLevel::High, cs.pin == CsPin::Cs1];
        by_number::Opening {
            instance: self.instance,
            qpi: self.qpi,
            pll_hz: self.pll_hz,
            osc_hz: self.osc_hz,
            core_hz: self.core_hz,
            freq: self.config.freq,
            idle_high: matches!(mode, SpiMode::Mode2 | SpiMode::Mode3),
            second_transition: matches!(mode, SpiMode::Mode1 | SpiMode::Mode3),
            master: self.config.ctrl_mode == CtrlMode::Master,
            work_mode: self.config.work_mode.number(),
            bit_mode: self.config.bit_mode_en,
            lsb_first: self.config.lsb_first,
            cs: self.config.cs_config.map(cs),
        }
    }
}

/// An opened bus: what its calls go by. It is plain data, and one that is made by hand is taken as it is.
#[derive(Clone, Copy, Debug, PartialEq, Eq, Hash)]
pub struct Bus {
    /// Its rate in Hz, for the dummies of a quad read. That of an opening is from 1 to 100,000,000.
    pub sck_hz: u32,
    /// The core rate in Hz, for the delays of a transaction. At 0, which no opening takes, each has 0 cycles.
    pub core_hz: u32,
}

impl Bus {
    /// [`transaction`](crate::transaction) at the core rate of the bus.
    ///
    /// ```
    /// let bus = qspi::Bus { sck_hz: 10_000_000, core_hz: 480_000_000 };
    /// let words = qspi::chain(&[qspi::Operation::Delay { ns: 10 }]);
    /// let mut log = [0; 2];
    /// let mut lent = qspi::Lent { limit: 3, log: &mut log, answers: &[] };
    /// let ended = bus.transaction(&mut lent, &mut [], &words);
    /// // 4.8 cycles, rounded up.
    /// assert_eq!(ended.log(&log).next().unwrap().value, 5);
    /// ```
    pub fn transaction(self, lent: &mut Lent, memory: &mut [u8], words: &[u32]) -> Ended {
        by_number::transaction(lent, self.core_hz, memory, words)
    }
}

/// How an opening ended.
#[must_use = "an opening may have been refused or cut short"]
#[derive(Clone, Copy, Debug, PartialEq, Eq, Hash)]
pub struct Opened {
    /// Its number and counts.
    pub ended: Ended,
    /// The bus, only with [`Number::Done`].
    pub bus: Option<Bus>,
}

/// Opens a bus, whose rate is from 1 to 100,000,000 Hz. Gives 0, 3, 4, 5, 7, 10, 11, 14 or 23; of several refusals the
/// first of 3, 4, 5, 14, 23, 7.
pub fn open(lent: &mut Lent, opening: &Opening) -> Opened {
    let (ended, sck_hz) = by_number::open(lent, &opening.numbered());
    let bus = Bus { sck_hz, core_hz: opening.core_hz };
    Opened { ended, bus: (ended.number == Number::Done).then_some(bus) }
}

/// Waits for the transfer to complete, then changes the work mode. `qpi`: the chip has QPI. Every mode other than QPI
/// leaves QPI: it clears 038 bit 31 too. Gives 0, 1, 2, 7, 10 or 11.
pub fn set_work_mode(lent: &mut Lent, qpi: bool, mode: WorkMode) -> Ended {
    by_number::set_work_mode(lent, qpi, mode.number())
}

#[cfg(test)]
mod tests {
    use super::*;

    #[test]
    fn modes_by_number() {
        for (n, mode) in WorkMode::ALL.into_iter().enumerate() {
            assert_eq!(mode.number(), n as u32);
            assert_eq!(WorkMode::from_number(n as u32), Some(mode));
        }
        assert_eq!(WorkMode::from_number(7), None);
        assert_eq!(WorkMode::from_number(u32::MAX), None);
    }

    #[test]
    fn configuration_as_numbers() {
        let cs_config = Some(CsConfig { polarity: Polarity::IdleLow, level: CsLevel::High, pin: CsPin::Cs1 });
        let config = Config {
            mode: SpiMode::Mode2,
            ctrl_mode: CtrlMode::Slave,
            work_mode: WorkMode::QuadIO,
            lsb_first: true,
            cs_config,
            ..Config::default()
        };
        let opening = Opening { instance: 2, qpi: true, pll_hz: 1, osc_hz: 2, core_hz: 3, config };
        let numbered = by_number::Opening {
            instance: 2,
            qpi: true,
            pll_hz: 1,
            osc_hz: 2,
            core_hz: 3,
            freq: 10_000_000,
            idle_high: true,
            second_transition: false,
            master: false,
            work_mode: 5,
            bit_mode: false,
            lsb_first: true,
            cs: Some([false, true, true]),
        };
        assert_eq!(opening.numbered(), numbered);
    }
}
