//! Feeds the same cases to the oracle and to the port and compares their answers.

mod cases;
mod child;
mod choices;
mod compare;
mod delays;
mod departures;
mod due;
mod exhaustive;
mod generate;
mod judge;
mod leaves;
mod numbers;
mod rng;
mod sheet;
mod shrink;
mod small;
#[path = "../../oracle/src/splitmix64.rs"]
mod splitmix64;
#[cfg(test)]
mod tests;
mod walk;

use cases::cases;
use compare::{Tally, compare, shrunk};
use std::process::ExitCode;
use std::time::{Duration, Instant};

const SAVED: &str = concat!(env!("CARGO_MANIFEST_DIR"), "/difference.txt");
/// How often the counts so far are told.
const EVERY: Duration = Duration::from_secs(10);

/// Saves and prints the smallest difference, shrunk; one of an earlier run is not left behind.
fn save(tally: &Tally) -> Result<(), String> {
    let _ = std::fs::remove_file(SAVED);
    let Some(found) = &tally.smallest else { return Ok(()) };
    write(found)?;
    let small = shrunk(found.clone())?;
    print!("{}", write(&small)?);
    Ok(())
}

fn write([line, oracle, port]: &compare::Answered) -> Result<String, String> {
    let text = format!("{line}\n# the oracle\n{oracle}.\n# the port\n{port}.\n");
    std::fs::write(SAVED, &text).map_err(|e| format!("{SAVED}: {e}"))?;
    Ok(text)
}

fn run() -> Result<Tally, String> {
    let begun = Instant::now();
    let (lines, title) = cases(std::env::args().skip(1))?;
    let tally = compare(lines, EVERY)?;
    let seconds = begun.elapsed().as_secs();
    save(&tally)?;
    print!("{}{}", tally.numbers(), tally.departures());
    if !title.is_empty() {
        print!("{} cases in {seconds} s, {title}", tally.cases());
    }
    println!("{}", tally.text());
    Ok(tally)
}

fn main() -> ExitCode {
    match run() {
        Ok(tally) => ExitCode::from(u8::from(tally.smallest.is_some())),
        Err(why) => {
            eprintln!("error: {why}");
            ExitCode::from(2)
        }
    }
}
