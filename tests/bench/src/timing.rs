//! Tables of times: the best of some rounds, the sides in turn.

use std::time::Instant;

const ROUNDS: usize = 41;
/// How long a round of one side takes at least, in seconds.
const ROUND: f64 = 0.002;

/// Seconds a call of `f` takes over so many calls.
fn round(f: &mut dyn FnMut(), calls: usize) -> f64 {
    let start = Instant::now();
    (0..calls).for_each(|_| f());
    start.elapsed().as_secs_f64() / calls as f64
}

/// Microseconds a call for each side: the best of all rounds. The sides take turns, so that noise meets all of them.
pub fn best<const N: usize>(mut sides: [&mut dyn FnMut(); N]) -> [f64; N] {
    let calls = sides.each_mut().map(|f| (ROUND / round(f, 3).max(1e-9)).ceil() as usize);
    let mut best = [f64::MAX; N];
    for _ in 0..ROUNDS {
        for i in 0..N {
            best[i] = best[i].min(round(sides[i], calls[i]) * 1e6);
        }
    }
    best
}

/// Tables under way, or their rows only counted.
pub struct Tables {
    pub timed: bool,
    /// The rows whose sides were seen to end alike.
    pub alike: usize,
}

impl Tables {
    /// Counts a row whose sides end alike; their times, where they are asked for.
    pub fn times<const N: usize>(&mut self, sides: [&mut dyn FnMut(); N]) -> Option<[f64; N]> {
        self.alike += 1;
        self.timed.then(|| best(sides))
    }

    /// Begins a table.
    pub fn head(&self, names: &str) {
        if self.timed {
            println!("{names}\n{}|", "|---".repeat(names.matches('|').count() - 1));
        }
    }
}

/// One row of the first table; not every row has an oracle's recorder.
pub fn row(name: &str, lean: f64, port: f64, recorded: Option<f64>) {
    let recorded = recorded.map_or(String::from("–"), |r| format!("{r:.3}"));
    println!("| {name} | {lean:.3} | {port:.3} | {:.2} | {recorded} |", port / lean);
}
