//! The clock's dividers.

use crate::by_number;
use crate::ended::Number;

/// A divider of the controller and its count.
#[derive(Clone, Copy, Debug, PartialEq, Eq, Hash)]
pub enum Divider {
    /// The module clock ÷ 2^count; a count above 15 is refused by 12.
    Cdr1(u8),
    /// The module clock ÷ (2 × (count + 1)).
    Cdr2(u8),
}

impl Divider {
    /// The kind, 1 for Cdr1 and 2 for Cdr2, and the count.
    pub fn numbers(self) -> (u32, u32) {
        match self {
            Divider::Cdr1(count) => (1, count.into()),
            Divider::Cdr2(count) => (2, count.into()),
        }
    }

    /// The divider of a kind and a count, if there is one.
    pub fn from_numbers(kind: u32, count: u32) -> Option<Self> {
        let count = u8::try_from(count).ok()?;
        match kind {
            1 => Some(Divider::Cdr1(count)),
            2 => Some(Divider::Cdr2(count)),
            _ => None,
        }
    }
}

/// Both dividers of a bus.
#[derive(Clone, Copy, Debug, PartialEq, Eq, Hash)]
pub struct Choice {
    /// The module divider: the module clock is PLL ÷ (this + 1). Above 31 it is refused by 12.
    pub mod_div: u8,
    /// The controller's divider.
    pub divider: Divider,
}

impl Choice {
    fn from_numbers((mod_div, kind, count): (u32, u32, u32)) -> Option<Self> {
        Some(Choice { mod_div: u8::try_from(mod_div).ok()?, divider: Divider::from_numbers(kind, count)? })
    }
}

/// The dividers whose rate is nearest to a target. Where no module clock is from 1 to 100,000,000 Hz, which an opening
/// refuses by 23: module divider 0 and `Cdr1(0)`.
pub fn select_clock(pll_hz: u32, target: u32) -> Choice {
    let numbers = by_number::select_clock(pll_hz, target);
    Choice::from_numbers(numbers).expect("the library is proved to choose dividers")
}

/// The rate that dividers give, in Hz; or the number 12.
pub fn actual_sck(pll_hz: u32, choice: Choice) -> Result<u32, Number> {
    let (kind, count) = choice.divider.numbers();
    match by_number::actual_sck(pll_hz, choice.mod_div.into(), kind, count) {
        (Number::Done, rate) => Ok(rate),
        (number, _) => Err(number),
    }
}

#[cfg(test)]
mod tests {
    use super::*;

    #[test]
    fn dividers_by_number() {
        for divider in [Divider::Cdr1(0), Divider::Cdr1(255), Divider::Cdr2(255)] {
            let (kind, count) = divider.numbers();
            assert_eq!(Divider::from_numbers(kind, count), Some(divider));
        }
        for (kind, count) in [(0, 0), (3, 0), (1, 256), (2, u32::MAX)] {
            assert_eq!(Divider::from_numbers(kind, count), None);
        }
        assert_eq!(Choice::from_numbers((256, 1, 0)), None);
    }
}
