//! Reads case lines from standard input and writes their answers to standard output.

use std::io;

fn main() -> io::Result<()> {
    let output = io::BufWriter::new(io::stdout().lock());
    port::answer_all(io::stdin().lock(), output)
}
