//! Every small case, by sections; README.md says what each holds.

use crate::choices::{Choices, every};
use crate::due::{self, Rules};
use crate::generate::list;
use crate::small::{Record, Run};
use crate::walk::Bus;

/// The memory of every small case.
const MEMORY: [u8; 2] = [0xA1, 0x5B];
/// Start and length: all windows of that memory, then those that end one byte beyond it.
const WINDOWS: [[u32; 2]; 10] = [[0, 0], [0, 1], [0, 2], [1, 0], [1, 1], [2, 0], [0, 3], [1, 2], [2, 1], [3, 0]];
const INSIDE: usize = 6;
/// The core rate of a transaction: 1 ns is a cycle and a half.
const CORE: u64 = 1_500_000_000;
/// What the fields that a kind does not use hold.
const UNUSED: u32 = u32::MAX;
/// Every poll of a run is answered in every way.
const ALL: usize = usize::MAX;

/// Kinds with one that is unknown at each end.
const OF_TRANSACTIONS: [u32; 7] = [1, 2, 3, 4, 5, 0, 6];
const OF_SHEETS: [u32; 11] = [1, 2, 3, 4, 5, 6, 7, 8, 9, 0, 10];

/// Where a run is cut: nowhere, and so on up to everywhere.
#[derive(Clone, Copy, PartialEq, Eq)]
enum Cuts {
    None,
    /// The last answer is missing.
    Answer,
    /// So too the log's last word; or, where every poll is ready, the whole log.
    Last,
    /// So too; where every poll is ready, after any answer and any word of the log.
    All,
}

/// Which small cases a section holds.
#[derive(Clone, Copy)]
struct Section {
    /// A transaction, a sheet, or one for the sheet program.
    name: &'static str,
    kinds: &'static [u32],
    /// How many of `WINDOWS` come up.
    windows: usize,
    /// The next of each record.
    nexts: &'static [&'static [u32]],
    /// Each limit, and how many of a run's polls are answered in every way; the others are ready.
    limits: &'static [(usize, usize)],
    cuts: Cuts,
}

/// What each section is called, how many cases it has, and what they are.
const SECTIONS: [(&str, usize, Section); 6] = [
    (
        "transactions of one record",
        76_437,
        Section {
            name: "transaction",
            kinds: &OF_TRANSACTIONS,
            windows: 10,
            nexts: &[&[0, 1, 2]],
            limits: &[(1, ALL), (2, ALL), (3, ALL)],
            cuts: Cuts::All,
        },
    ),
    (
        "transactions of two records, any nexts",
        291_600,
        Section {
            name: "transaction",
            kinds: &OF_TRANSACTIONS,
            windows: 10,
            nexts: &[&[0, 1, 2, 3], &[0, 1, 2, 3]],
            limits: &[(1, 0)],
            cuts: Cuts::None,
        },
    ),
    (
        "transactions of two records",
        3_583_353,
        Section {
            name: "transaction",
            kinds: &[1, 2, 3, 4, 5],
            windows: INSIDE,
            nexts: &[&[2], &[0]],
            limits: &[(1, ALL), (2, 12), (3, 6)],
            cuts: Cuts::Last,
        },
    ),
    (
        "sheets of one record",
        333_348,
        Section {
            name: "sheet",
            kinds: &OF_SHEETS,
            windows: 10,
            nexts: &[&[0, 1, 2]],
            limits: &[(1, ALL), (2, ALL), (3, 7)],
            cuts: Cuts::Answer,
        },
    ),
    (
        "sheets of two records",
        743_501,
        Section {
            name: "sheet",
            kinds: &[1, 2, 3, 4, 5, 6, 7, 9],
            windows: INSIDE,
            nexts: &[&[2], &[0]],
            limits: &[(1, ALL), (2, 4), (3, 3)],
            cuts: Cuts::None,
        },
    ),
    (
        "printed sheets of one record",
        3_264,
        Section {
            name: "print",
            kinds: &OF_SHEETS,
            windows: 10,
            nexts: &[&[0, 1, 2]],
            limits: &[(1, 0)],
            cuts: Cuts::None,
        },
    ),
];

/// A small case before it is a line.
struct Small {
    name: &'static str,
    bus: Bus,
    limit: usize,
    log_words: usize,
    records: Vec<Record>,
    answers: Vec<u32>,
}

impl Small {
    fn line(&self) -> String {
        let words: Vec<u32> = self.records.iter().flatten().copied().collect();
        if self.name == "transaction" {
            let [a, b] = MEMORY;
            let (limit, log) = (self.limit, self.log_words);
            return format!("transaction {limit} {log} {CORE}{} 2 2 {a} {b}{}", list(&words), list(&self.answers));
        }
        let counts = [self.records.len(), self.answers.len()].map(|n| n as u32);
        let header = [self.limit as u32, self.bus.rate, u32::from(self.bus.qpi), counts[0], counts[1]];
        let all = header.iter().chain(&words).chain(&self.answers).flat_map(|w| w.to_le_bytes());
        crate::sheet::line(self.name, &all.chain(MEMORY).collect::<Vec<u8>>())
    }
}

/// A kind and its six fields; the windows are among the first `windows`.
fn body(c: &mut Choices, kinds: &[u32], windows: usize) -> [u32; 7] {
    let kind = c.pick(kinds);
    let mut r = [UNUSED; 7];
    r[0] = kind;
    let starts: &[usize] = match kind {
        1 | 2 | 4 => &[1],
        3 => &[1, 3],
        8 | 9 => &[1, 5],
        _ => &[],
    };
    for &at in starts {
        [r[at], r[at + 1]] = c.pick(&WINDOWS[..windows]);
    }
    match kind {
        5 => r[1] = c.pick(&[0, 1, 2]),
        7 => r[1] = c.pick(&[0, 1, 2, 3, 4, 5, 6, 7]),
        8 => [r[3], r[4]] = [0, c.pick(&[0, 1, 256])],
        _ => {}
    }
    r
}

fn records(c: &mut Choices, s: &Section) -> Vec<Record> {
    let of = |c: &mut Choices, nexts: &[u32]| {
        let [kind, f1, f2, f3, f4, f5, f6] = body(c, s.kinds, s.windows);
        [kind, f1, f2, f3, f4, f5, f6, c.pick(nexts)]
    };
    s.nexts.iter().map(|nexts| of(c, nexts)).collect()
}

/// The words of the log and the answers of a case whose run makes and takes so many.
fn cut(c: &mut Choices, cuts: Cuts, ready: bool, entries: usize, answers: usize) -> (usize, usize) {
    let (words, mut ways) = (2 * entries, vec![(2 * entries, answers)]);
    let last = if cuts == Cuts::None { 0 } else { 1 };
    let (logs, some) = match (cuts, ready) {
        (Cuts::None | Cuts::Answer, _) => (words..words, last),
        (Cuts::All, true) => (0..words, answers),
        _ => (words.saturating_sub(1)..words, last),
    };
    ways.extend((answers.saturating_sub(some)..answers).map(|n| (words, n)));
    ways.extend(logs.map(|n| (n, answers)));
    if cuts == Cuts::Last && ready && words > 1 {
        ways.push((0, answers));
    }
    c.pick(&ways)
}

fn small(c: &mut Choices, s: &Section) -> Small {
    let qpi = s.name == "transaction" || c.below(2) == 1;
    let (bus, (limit, polls)) = (Bus { rate: 0, qpi }, c.pick(s.limits));
    let records = records(c, s);
    let words: Vec<u64> = records.iter().flatten().map(|&w| u64::from(w)).collect();
    let rules = if s.name == "transaction" { Rules::Transaction(CORE) } else { Rules::Sheet };
    if due::chain(&words, rules, MEMORY.len() as u64) != 0 {
        return Small { name: s.name, bus, limit, log_words: 2, records, answers: vec![0] };
    }
    let before = c.made();
    let mut run = Run::new(c, bus, limit, polls);
    let _ = run.chain(&records);
    let (entries, mut answers) = (run.entries, run.answers);
    let ready = c.first_since(before);
    let (log_words, taken) = cut(c, s.cuts, ready, entries, answers.len());
    answers.truncate(taken);
    Small { name: s.name, bus, limit, log_words, records, answers }
}

/// Document 01's sheet with one byte another, for every byte and every value.
fn damaged() -> impl Iterator<Item = String> {
    const SHEET: &[u8] = include_bytes!("../../../crates/qspi_sheet/stdin");
    every(|c| {
        let mut bytes = SHEET.to_vec();
        let byte = &mut bytes[c.below(SHEET.len())];
        *byte = byte.wrapping_add(1 + c.below(255) as u8);
        crate::sheet::line("sheet", &bytes)
    })
}

/// One in `step` of the cases of every section.
pub fn cases(step: usize) -> impl Iterator<Item = String> {
    let sections = SECTIONS.iter().flat_map(|(_, _, s)| every(|c| small(c, s)));
    sections.step_by(step).map(|s| s.line()).chain(damaged().step_by(step))
}

#[cfg(test)]
mod tests {
    use super::*;

    #[test]
    fn counts() {
        for (what, count, s) in &SECTIONS {
            assert_eq!(every(|c| small(c, s)).count(), *count, "{what}");
        }
        assert_eq!(damaged().count(), 21_675);
    }

    /// The oracle makes as many entries and takes as many answers as the cases that are not cut are made for.
    #[test]
    fn uncut_runs_fit() {
        for (what, _, s) in SECTIONS.iter().filter(|s| s.2.name != "print") {
            let whole = Section { cuts: Cuts::None, ..*s };
            let some: Vec<Small> = every(|c| small(c, &whole)).step_by(211).collect();
            let lines: Vec<String> = some.iter().map(Small::line).collect();
            let answers = crate::tests::answers(&lines);
            for ((case, line), answer) in some.iter().zip(&lines).zip(&answers).filter(|c| due::due(c.0.1) == Some(0)) {
                let end = answer.lines().find_map(|l| l.strip_prefix("end ")).unwrap();
                let [number, entries, taken] =
                    [0, 1, 2].map(|i| end.split(' ').nth(i).unwrap().parse::<usize>().unwrap());
                assert!(number < 3, "{what}: {line}: {end}");
                assert_eq!((2 * entries, taken), (case.log_words, case.answers.len()), "{what}: {line}: {end}");
            }
        }
    }
}
