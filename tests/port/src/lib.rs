//! Cases in, what the port did out, in the text form that the oracle speaks too.
#![forbid(unsafe_code)]

mod answer;
#[path = "../../oracle/src/lines.rs"]
mod lines;
mod program;
mod received;
#[path = "../../oracle/src/words.rs"]
mod words;

pub use answer::answer_all;
