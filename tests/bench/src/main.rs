//! Times the port and the Rust on the same inputs in one run. Both are built for release.

// chain.rs calls `crate::run::call`.
mod calls;
#[allow(dead_code)]
#[path = "../../oracle/src/chain.rs"]
mod chain;
mod clock;
mod growth;
mod library;
mod rust;
#[allow(dead_code)]
#[path = "../../oracle/src/sheet.rs"]
mod sheet;
mod sheets;
mod timing;

use rust::run;
use std::io::Write;
use std::process::ExitCode;
use timing::Tables;

/// Every row of both tables; how many there are.
fn tables(timed: bool) -> usize {
    let t = &mut Tables { timed, alike: 0 };
    t.head("| call | Rust, lean cells, µs | port, µs | port : Rust | Rust, oracle's recorder, µs |");
    calls::rows(t);
    sheets::rows(t);
    clock::rows(t);
    t.head("\n| entries | write, Rust | write, port | read, Rust | read, port | polls, Rust | polls, port |");
    growth::rows(t);
    t.alike
}

fn main() -> ExitCode {
    match std::env::args().nth(1).as_deref() {
        None => _ = tables(true),
        // Sees that the sides of each row end alike, and takes no time: a panic says which do not.
        Some("--check") => println!("{} passed, 0 failed", tables(false)),
        // The sheet of which tests/bench/stack measures the stack.
        Some("--sheet") => std::io::stdout().write_all(&sheets::of_bytes()).expect("standard output is open"),
        Some(option) => {
            eprintln!("error: {option} is no option");
            return ExitCode::from(2);
        }
    }
    ExitCode::SUCCESS
}
