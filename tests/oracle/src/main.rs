//! Reads case lines from standard input and writes their answers to standard output.

use std::io;

fn main() -> io::Result<()> {
    oracle::answer_all(io::stdin().lock(), io::BufWriter::new(io::stdout().lock()))
}
