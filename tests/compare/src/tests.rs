//! The generator against the oracle.

use crate::cases::cases;
use crate::child::Child;
use crate::compare::number;
use crate::delays::{Delay, MOST, delayed, delays};
use crate::due::{CORE_RATE, NO_CLOCK, due};
use crate::generate::NAMES;
use std::collections::{BTreeMap, BTreeSet};
use std::sync::Arc;

fn made(count: &str) -> Vec<String> {
    made_only(count, &NAMES.join(","))
}

fn made_only(count: &str, names: &str) -> Vec<String> {
    let words = ["--seed", "1", "--count", count, "--only", names].map(String::from);
    cases(words.into_iter()).unwrap().0.collect()
}

/// The words of a line that the oracle writes where the Rust has no answer.
fn no_answer(answer: &str) -> bool {
    answer.lines().any(|l| l.starts_with("panic") || l == "refused" || l == "none")
}

#[test]
fn every_name_is_reached() {
    let lines = made("1000");
    let names: BTreeSet<&str> = lines.iter().map(|l| l.split(' ').next().unwrap()).collect();
    assert_eq!(names, BTreeSet::from(NAMES));
    assert_eq!(lines, made("1000"));
}

/// The oracle's answers; it has one for each line that is not refused.
pub fn answers(lines: &[String]) -> Vec<String> {
    let mut oracle = Child::start("oracle").unwrap();
    oracle.send(&Arc::new(lines.join("\n") + "\n"));
    oracle.close();
    let answers: Vec<String> = lines.iter().map(|_| oracle.answer().unwrap()).collect();
    oracle.finish().unwrap();
    for (line, answer) in lines.iter().zip(&answers) {
        assert!(!answer.starts_with("error"), "{line}: {answer}");
        assert!(due(line) != Some(0) || !no_answer(answer), "{line}: {answer}");
    }
    answers
}

#[test]
fn the_oracle_takes_every_line_and_ends_in_every_way() {
    let ends: BTreeSet<u32> = answers(&made("2000")).iter().filter_map(|a| number(a)).collect();
    assert_eq!(ends, BTreeSet::from([0, 1, 2, 10, 11]));
}

/// Where the Rust reads 038, it reads a word with bit 31 set in at least half of the cases, whatever the call.
#[test]
fn bit_31_of_038_is_often_set() {
    for name in ["mode", "quadread", "quadwrite", "transaction", "sheet"] {
        let all = answers(&made_only("1000", name));
        let read: Vec<&String> = all.iter().filter(|a| a.contains("\nr 0038 ")).collect();
        let set = |a: &&&String| a.lines().any(|l| l.starts_with("r 0038 ") && l.as_bytes()[7] >= b'8');
        let set = read.iter().filter(set).count();
        assert!(read.len() > 300 && 2 * set >= read.len(), "{name}: {set} of {}", read.len());
    }
}

/// Of the sheets two thirds are not refused and one third is done; each number comes up, and a log that is just full.
#[test]
fn sheets_are_mostly_run() {
    let lines = made_only("3000", "sheet");
    let answers = answers(&lines);
    let mut ends = BTreeMap::new();
    for (line, answer) in lines.iter().zip(&answers) {
        let end = due(line).filter(|&n| n > 0).or_else(|| number(answer));
        *ends.entry(end.unwrap()).or_insert(0) += 1;
    }
    assert!(ends.keys().eq(&[0, 1, 2, 7, 8, 9, 10, 11, 13]), "{ends:?}");
    let run: u32 = [0, 1, 2, 10, 11].iter().map(|number| ends[number]).sum();
    assert!(run > 2000 && ends[&0] > 1000 && ends.values().all(|&n| n > 9), "{ends:?}");
    for end in ["end 0 4096 ", "end 10 4096 ", "end 0 4095 "] {
        assert!(answers.iter().any(|a| a.contains(end)), "{end}");
    }
}

/// What is due of the delay records that a transaction ran, where the Rust's value is another: half the nanoseconds.
fn delays_run(line: &str, oracle: &str) -> Vec<Delay> {
    let all = delays(line);
    let halves = all.iter().map(|delay| u128::from(delay.ns / 2));
    assert_eq!(delayed(oracle, halves), oracle, "{line}");
    let due = delayed(oracle, all.iter().map(|delay| delay.cycles()));
    let run = due.lines().zip(oracle.lines()).filter(|(due, given)| due != given);
    let cycles = |line: &str| u128::from_str_radix(&line[7..], 16).unwrap();
    run.map(|(due, _)| *all.iter().find(|delay| delay.cycles() == cycles(due)).unwrap()).collect()
}

/// Each named core rate comes up where a delay's value is not the Rust's, and chains on which several are not; delays of
/// as many cycles as there can be, and of a whole number of them; and too many cycles.
#[test]
fn delays_are_reached() {
    let lines = made_only("3000", "transaction");
    let (mut rates, mut several, mut most, mut whole) = (BTreeSet::new(), 0, 0, 0);
    for (line, answer) in lines.iter().zip(&answers(&lines)).filter(|(line, _)| due(line) == Some(0)) {
        let run = delays_run(line, answer);
        rates.extend(run.iter().map(|delay| delay.core_hz));
        several += usize::from(run.len() > 1);
        most += run.iter().filter(|delay| delay.cycles() == MOST).count();
        whole += run.iter().filter(|delay| delay.ns * delay.core_hz % 1_000_000_000 == 0).count();
    }
    for core_hz in [0, 1, 2, 999_999_999, 1_000_000_000, 1_000_000_001, u64::from(u32::MAX)] {
        assert!(rates.contains(&core_hz), "{core_hz}");
    }
    let refused = lines.iter().filter(|line| due(line) == Some(CORE_RATE)).count();
    assert!(several > 300 && most > 30 && whole > 30 && refused > 100, "{several} {most} {whole} {refused}");
}

/// Openings at a core rate of 0: with each number that comes first, and with a limit of 0, which comes later.
#[test]
fn openings_at_no_core_rate_are_reached() {
    let lines = made_only("3000", "open");
    let at_none: Vec<&String> = lines.iter().filter(|line| line.split(' ').nth(14) == Some("0")).collect();
    let numbers: BTreeSet<u32> = at_none.iter().map(|line| due(line).unwrap()).collect();
    assert_eq!(numbers, BTreeSet::from([3, 4, 5, CORE_RATE]));
    let limit_0 = |line: &&&String| due(line) == Some(CORE_RATE) && line.split(' ').nth(16) == Some("0");
    assert!(at_none.iter().any(|line| limit_0(&line)), "{}", at_none.len());
}

/// The numbers of each opening up to its limit, and the number that is due.
fn openings() -> Vec<([u32; 16], u32)> {
    let numbers = |line: &str| -> Vec<u32> { line.split(' ').skip(1).take(16).map(|n| n.parse().unwrap()).collect() };
    made_only("8000", "open").iter().map(|line| (numbers(line).try_into().unwrap(), due(line).unwrap())).collect()
}

/// Each named PLL, and others, come up with each named target, and others, where nothing but the PLL is refused; with
/// each named PLL, every value of each setting.
#[test]
fn plls_targets_and_settings_are_reached() {
    let plls = [0, 1, 99, 3_200_000_031, 3_200_000_032, u32::MAX];
    let targets = [0, 99_999, 100_000, 100_000_000, u32::MAX];
    let named = |n, names: &[u32]| names.contains(&n).then_some(n);
    let all: Vec<[u32; 16]> =
        openings().iter().filter(|(_, due)| [0, NO_CLOCK].contains(due)).map(|(f, _)| *f).collect();
    let pairs: BTreeSet<_> = all.iter().map(|f| (named(f[11], &plls), named(f[10], &targets))).collect();
    assert_eq!(pairs.len(), 7 * 6, "{pairs:?}");
    for pll in plls {
        // Instance, SPI mode, role, work mode, seven flags.
        let values = [4, 2, 2, 7, 2, 2, 2, 2, 2, 2, 2];
        for (setting, values) in [0, 1, 2, 3, 4, 5, 6, 7, 8, 9, 14].into_iter().zip(values) {
            let reached: BTreeSet<u32> = all.iter().filter(|f| f[11] == pll).map(|f| f[setting]).collect();
            assert_eq!(reached.len(), values, "PLL {pll}, number {setting}: {reached:?}");
        }
    }
}

/// A core rate of 0, a PLL without a clock, as the request names them, and a limit of 0 meet in every way; 3, 4 and 5
/// come before them.
#[test]
fn refusals_of_an_opening_meet() {
    let no_clock = |pll: u32| pll == 0 || pll >= 3_200_000_032;
    let met: BTreeSet<([bool; 3], u32)> =
        openings().iter().map(|(f, due)| ([f[13] == 0, no_clock(f[11]), f[15] == 0], *due)).collect();
    let later: Vec<_> = met.iter().copied().filter(|(_, due)| ![3, 4, 5].contains(due)).collect();
    let due = [
        ([false, false, false], 0),
        ([false, false, true], 7),
        ([false, true, false], NO_CLOCK),
        ([false, true, true], NO_CLOCK),
        ([true, false, false], CORE_RATE),
        ([true, false, true], CORE_RATE),
        ([true, true, false], CORE_RATE),
        ([true, true, true], CORE_RATE),
    ];
    assert_eq!(later, due);
    let without: BTreeSet<u32> = met.iter().filter(|(wrong, _)| wrong[1]).map(|met| met.1).collect();
    assert_eq!(without, BTreeSet::from([3, 4, 5, CORE_RATE, NO_CLOCK]));
}
