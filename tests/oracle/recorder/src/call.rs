//! A call of the driver and how it ended, for both builds of the driver.

/// One call on a bus.
pub enum Call<'a> {
    Write(&'a [u8]),
    Read(&'a mut [u8]),
    /// Read into the first, write from the second.
    Transfer(&'a mut [u8], &'a [u8]),
    InPlace(&'a mut [u8]),
    Flush,
    /// A work mode in `WorkMode` order.
    Mode(u32),
    QuadRead {
        command: &'a [u8],
        tclqv_ns: u32,
        margin: u8,
        data: &'a mut [u8],
    },
    QuadWrite(&'a [u8], &'a [u8]),
    DelayNs(u32),
}

/// The fields of an opening, as a case line has them.
pub struct Opening {
    pub instance: u32,
    pub mode: u32,
    pub master: bool,
    pub work_mode: u32,
    pub bit_mode_en: bool,
    pub lsb_first: bool,
    /// Polarity, level and pin of the chip-select record.
    pub cs_config: Option<[u32; 3]>,
    pub freq: u32,
    pub pll_hz: u32,
    pub osc_hz: u32,
}

/// How a call ended.
#[derive(Clone, Debug, PartialEq, Eq)]
pub enum How {
    /// 0, 1 or 2, or the number of the cut, 10 or 11.
    Number(u32),
    /// The Rust panicked, and said so.
    Panic(String),
}
