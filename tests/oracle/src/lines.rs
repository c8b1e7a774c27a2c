//! Case lines in, answers out: the form of input and output that the oracle and the port share.

use std::io::{self, BufRead, Write};

/// Answers every case of the input: its lines by `answer`, then a line with one full stop.
pub fn answer_each(
    input: impl BufRead,
    mut output: impl Write,
    answer: impl Fn(&str, &mut String) -> Result<(), String>,
) -> io::Result<()> {
    for line in input.lines() {
        let line = line?;
        if line.trim().is_empty() || line.starts_with('#') {
            continue;
        }
        let mut text = String::new();
        match answer(&line, &mut text) {
            Ok(()) => output.write_all(text.as_bytes())?,
            Err(why) => writeln!(output, "error {why}")?,
        }
        output.write_all(b".\n")?;
    }
    output.flush()
}
