//! Where the cases come from.

use crate::exhaustive;
use crate::generate::{NAMES, case};
use crate::rng::Rng;
use std::time::{Duration, Instant, SystemTime};

/// How often each case comes up in a long run, out of the sum: a printed sheet takes a process of its own.
const MIX: [(&str, usize); 16] = [
    ("open", 20),
    ("free", 4),
    ("write", 25),
    ("read", 25),
    ("inplace", 25),
    ("transfer", 25),
    ("flush", 12),
    ("mode", 20),
    ("quadread", 35),
    ("quadwrite", 25),
    ("transaction", 80),
    ("clock", 10),
    ("sck", 5),
    ("dummy", 5),
    ("sheet", 80),
    ("print", 4),
];
/// The cases of one seed in a long run, and all of one for which no end is given.
const ROUND: usize = 10_000;
const LONG: usize = 1_000_000;

type Lines = Box<dyn Iterator<Item = String>>;

/// What the command line asks for.
#[derive(Default)]
struct Asked {
    seed: Option<u64>,
    count: Option<usize>,
    minutes: Option<f64>,
    only: Option<String>,
    list: Option<String>,
    exhaustive: Option<usize>,
    long: bool,
}

/// The case lines that the command line asks for, made one by one or read from a list, and what they are.
pub fn cases(words: impl Iterator<Item = String>) -> Result<(Lines, String), String> {
    let asked = Asked::read(words)?;
    let only: Vec<String> = match &asked.only {
        Some(names) => names.split(',').map(String::from).collect(),
        None => NAMES.map(String::from).to_vec(),
    };
    if let Some(name) = only.iter().find(|n| !NAMES.contains(&n.as_str())) {
        return Err(format!("{name} is no case"));
    }
    if let Some(path) = &asked.list {
        return Ok((listed(path, &only)?, String::new()));
    }
    if let Some(step) = asked.exhaustive {
        return Ok((Box::new(exhaustive::cases(step.max(1))), format!("one small case in {step}: ")));
    }
    if asked.long {
        return Ok(long(&asked));
    }
    let mut rng = Rng(asked.seed.unwrap_or(1));
    let lines = (0..asked.count.unwrap_or(1000)).map(move |_| {
        let name = &only[rng.below(only.len())];
        case(&mut rng, name)
    });
    Ok((Box::new(lines), String::new()))
}

impl Asked {
    fn read(mut words: impl Iterator<Item = String>) -> Result<Asked, String> {
        fn of<T: std::str::FromStr<Err: std::fmt::Display>>(value: &str) -> Result<Option<T>, String> {
            value.parse().map(Some).map_err(|e| format!("{value}: {e}"))
        }
        let mut asked = Asked::default();
        while let Some(option) = words.next() {
            if option == "--long" {
                asked.long = true;
                continue;
            }
            let value = words.next().ok_or(format!("{option} wants a value"))?;
            match option.as_str() {
                "--seed" => asked.seed = of(&value)?,
                "--count" => asked.count = of(&value)?,
                "--minutes" => asked.minutes = of(&value)?,
                "--only" => asked.only = Some(value),
                "--list" => asked.list = Some(value),
                "--exhaustive" => asked.exhaustive = of(&value)?,
                _ => return Err(format!("{option} is no option")),
            }
        }
        let chosen = asked.only.is_some() || asked.list.is_some() || asked.exhaustive.is_some();
        match asked.long {
            true if chosen => Err("a long run takes a seed, and minutes or a count".into()),
            false if asked.minutes.is_some() => Err("only a long run takes minutes".into()),
            _ => Ok(asked),
        }
    }
}

/// Seed after seed, every case name among them, until the minutes or the count asked for; where neither is, every small case
/// comes first.
fn long(asked: &Asked) -> (Lines, String) {
    let clock = || SystemTime::now().duration_since(SystemTime::UNIX_EPOCH).map_or(0, |since| since.as_secs());
    let seed = asked.seed.unwrap_or_else(clock);
    let random = (0..).flat_map(move |round| {
        let mut rng = Rng(seed.wrapping_add(round));
        (0..ROUND).map(move |_| mixed(&mut rng))
    });
    let title = format!("seeds from {seed}: ");
    match (asked.minutes, asked.count) {
        (Some(minutes), count) => {
            let end = Instant::now() + Duration::from_secs_f64(60.0 * minutes.clamp(0.0, 1e6));
            let lines = random.take(count.unwrap_or(usize::MAX)).take_while(move |_| Instant::now() < end);
            (Box::new(lines), title)
        }
        (None, Some(count)) => (Box::new(random.take(count)), title),
        (None, None) => (Box::new(exhaustive::cases(1).chain(random.take(LONG))), format!("every small case, {title}")),
    }
}

fn mixed(rng: &mut Rng) -> String {
    let mut at = rng.below(MIX.iter().map(|m| m.1).sum());
    let drawn = MIX.iter().find(|(_, weight)| {
        let here = at < *weight;
        at = at.saturating_sub(*weight);
        here
    });
    case(rng, drawn.map_or("sheet", |m| m.0))
}

fn listed(path: &str, only: &[String]) -> Result<Lines, String> {
    let text = std::fs::read_to_string(path).map_err(|e| format!("{path}: {e}"))?;
    let wanted = |line: &&str| is_case(line) && only.iter().any(|n| line.split_whitespace().next() == Some(n));
    let lines: Vec<String> = text.lines().filter(wanted).map(String::from).collect();
    if lines.is_empty() {
        return Err(format!("{path} has no case"));
    }
    Ok(Box::new(lines.into_iter()))
}

/// Tells a case line of a list from the lines of an answer. Three names are of both; there the words are counted.
fn is_case(line: &str) -> bool {
    let words: Vec<&str> = line.split_whitespace().take(6).collect();
    match words.first() {
        Some(&"clock") => words.len() == 3,
        Some(&"sck") => words.len() == 5,
        Some(&"dummy") => words.len() == 4,
        Some(name) => NAMES.contains(name),
        None => false,
    }
}
