//! Cases in, what the Rust did out: the text form is described in README.md.

mod chain;
mod lines;
pub mod plan;
mod run;
mod sheet;
mod splitmix64;
mod words;

use std::io::{self, BufRead, Write};

pub use run::{answer, answered_by};

/// Answers every case of the input.
pub fn answer_all(input: impl BufRead, output: impl Write) -> io::Result<()> {
    // A panic of the driver is an answer here, and said in the case's own lines.
    std::panic::set_hook(Box::new(|_| {}));
    lines::answer_each(input, output, answer)
}
