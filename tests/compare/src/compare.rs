//! The same cases for both programs, their answers counted.

use crate::child::Child;
use crate::due::due;
use crate::judge::{Verdict, judge};
use crate::shrink::{candidates, size};
use std::collections::{BTreeMap, VecDeque};
use std::sync::Arc;
use std::time::{Duration, Instant};

/// Cases that are handed over at once.
const BATCH: usize = 256;
/// Cases that may be under way: more than a program holds back in an output buffer of 8 KB.
const UNDER_WAY: usize = 4096;

/// A case line, the oracle's answer and the port's.
pub type Answered = [String; 3];

#[derive(Default)]
pub struct Tally {
    same: usize,
    different: usize,
    /// How many cases are excluded by each departure.
    excluded: BTreeMap<&'static str, usize>,
    /// How many calls of the port ended with each number.
    ends: BTreeMap<u32, usize>,
    /// The smallest case that differs.
    pub smallest: Option<Answered>,
}

impl Tally {
    fn add(&mut self, [line, oracle, port]: Answered) {
        let verdict = judge(&line, &oracle, &port);
        *match verdict {
            Verdict::Same => &mut self.same,
            Verdict::Different => &mut self.different,
            Verdict::Excluded(departure) => self.excluded.entry(departure).or_default(),
        } += 1;
        if let Some(number) = number(&port) {
            *self.ends.entry(number).or_default() += 1;
        }
        if verdict == Verdict::Different && self.smallest.as_ref().is_none_or(|s| size(&line) < size(&s[0])) {
            self.smallest = Some([line, oracle, port]);
        }
    }

    /// `ended 12 by 0, 3 by 1`; nothing where no case is a call.
    pub fn numbers(&self) -> String {
        let each: Vec<String> = self.ends.iter().map(|(number, count)| format!("{count} by {number}")).collect();
        if each.is_empty() { String::new() } else { format!("ended {}\n", each.join(", ")) }
    }

    /// `excluded 5: NAME` for each departure that excludes a case.
    pub fn departures(&self) -> String {
        self.excluded.iter().map(|(name, count)| format!("excluded {count}: {name}\n")).collect()
    }

    pub fn text(&self) -> String {
        let (compared, excluded) = (self.same + self.different, self.cases() - self.same - self.different);
        format!("{compared} compared, {excluded} excluded, {} differences", self.different)
    }

    /// How many cases were answered.
    pub fn cases(&self) -> usize {
        self.same + self.different + self.excluded.values().sum::<usize>()
    }
}

/// The number of an answer's end line.
pub fn number(answer: &str) -> Option<u32> {
    let end = answer.lines().find_map(|l| l.strip_prefix("end "))?;
    end.split(' ').next()?.parse().ok()
}

/// Hands every case to both programs and both answers to `take`, in the order of the cases.
fn answers(cases: impl Iterator<Item = String>, mut take: impl FnMut(Answered)) -> Result<(), String> {
    let mut cases = cases.peekable();
    let (mut oracle, mut port) = (Child::start("oracle")?, Child::start("port")?);
    let mut under_way = VecDeque::new();
    loop {
        while under_way.len() < UNDER_WAY && cases.peek().is_some() {
            let batch: Vec<String> = cases.by_ref().take(BATCH).collect();
            let text = Arc::new(batch.join("\n") + "\n");
            oracle.send(&text);
            port.send(&text);
            under_way.extend(batch);
        }
        if cases.peek().is_none() {
            oracle.close();
            port.close();
        }
        let Some(line) = under_way.pop_front() else { break };
        take([line, oracle.answer()?, port.answer()?]);
    }
    oracle.finish()?;
    port.finish()
}

/// Compares all cases and says every so often how far it is.
pub fn compare(cases: impl Iterator<Item = String>, every: Duration) -> Result<Tally, String> {
    let mut tally = Tally::default();
    let (mut told, mut cases_told) = (Instant::now(), 0);
    answers(cases, |answered| {
        tally.add(answered);
        let since = told.elapsed();
        if since > every {
            let rate = (tally.cases() - cases_told) as f64 / since.as_secs_f64();
            eprintln!("{} cases: {}, {rate:.0} a second", tally.cases(), tally.text());
            (told, cases_told) = (Instant::now(), tally.cases());
        }
    })?;
    Ok(tally)
}

/// Whether a candidate is a case that differs, and not merely a line that cannot be read.
fn differs([line, oracle, port]: &Answered) -> bool {
    let read = due(line).is_some() && ![oracle, port].iter().any(|a| a.starts_with("error"));
    read && judge(line, oracle, port) == Verdict::Different
}

/// Goes on to the smallest candidate that still differs, as long as there is one.
pub fn shrunk(mut found: Answered) -> Result<Answered, String> {
    loop {
        let lines = candidates(&found[0]);
        if lines.is_empty() {
            return Ok(found);
        }
        let mut smallest: Option<Answered> = None;
        answers(lines.into_iter(), |answered| {
            if smallest.is_none() && differs(&answered) {
                smallest = Some(answered);
            }
        })?;
        match smallest {
            Some(smaller) => found = smaller,
            None => return Ok(found),
        }
    }
}
