//! The clock choice.

use crate::library;
use crate::timing::{Tables, row};
use std::hint::black_box;

/// A small generator of pseudo-random numbers (xorshift).
struct Random(u64);

impl Random {
    fn word(&mut self) -> u32 {
        self.0 ^= self.0 << 13;
        self.0 ^= self.0 >> 7;
        self.0 ^= self.0 << 17;
        (self.0 >> 16) as u32
    }
}

const INPUTS: usize = 200;

fn clock_row(t: &mut Tables, name: &str, mut input: impl FnMut() -> (u32, u32)) {
    let inputs: Vec<(u32, u32)> = (0..INPUTS).map(|_| input()).collect();
    let rust = |(pll, target)| {
        let (m, kind, c) = lean_driver::calls::select_clock(pll, target);
        (u32::from(m), u32::from(kind), u32::from(c))
    };
    let port = |(pll, target)| library::select_clock(pll, target);
    assert!(inputs.iter().all(|&i| rust(i) == port(i)), "{name}: the choices differ");
    let mut all_rust = || inputs.iter().for_each(|&i| _ = black_box(rust(black_box(i))));
    let mut all_port = || inputs.iter().for_each(|&i| _ = black_box(port(black_box(i))));
    if let Some(times) = t.times([&mut all_rust, &mut all_port]) {
        let [rust, port] = times.map(|t| t / INPUTS as f64);
        row(name, rust, port, None);
    }
}

/// A PLL rate and a target that some dividers give exactly.
fn exact(r: &mut Random) -> (u32, u32) {
    let (m, d, k) = (r.word() % 32 + 1, 2 * (r.word() % 256 + 1), r.word() % 100_000 + 1);
    let pll = (u64::from(k) * u64::from(m) * u64::from(d)) as u32;
    (pll, pll / m / d)
}

pub fn rows(t: &mut Tables) {
    let r = &mut Random(0x9E37_79B9_7F4A_7C15);
    clock_row(t, "select_clock, any PLL and target", || (r.word(), r.word()));
    clock_row(t, "select_clock, PLL 24 MHz to 3.2 GHz, target 100 kHz to 100 MHz", || {
        (24_000_000 + r.word() % 3_176_000_000, 100_000 + r.word() % 99_900_001)
    });
    clock_row(t, "select_clock, an exact rate exists", || exact(r));
}
