//! A smaller case that still differs: fewer records, shorter answers and buffers, smaller numbers.

use crate::generate::list;
use crate::numbers::numbers;
use crate::sheet;
use std::fmt::Write;

/// The most words or bytes of a part that are changed one by one, and the most stretches that one is cut into.
const FEW: usize = 64;
/// A size of which a part's words and bytes are not written out.
const MOST: usize = 1 << 17;

#[derive(Clone, Debug, PartialEq)]
enum Part {
    Number(u64),
    Records(Vec<u32>),
    Answers(Vec<u32>),
    Bytes(Vec<u8>),
}

/// The parts of a case line by its name; a sheet's are those that its bytes hold.
fn form(name: &str) -> &'static str {
    match name {
        "open" => "nnnnnnnnnnnnnnnnna",
        "free" | "flush" => "nna",
        "write" | "read" | "inplace" => "nnba",
        "transfer" | "quadwrite" => "nnbba",
        "mode" => "nnnna",
        "quadread" => "nnnbnnba",
        "transaction" => "nnnrba",
        "clock" => "nn",
        "sck" => "nnnn",
        "dummy" => "nnn",
        _ => "b",
    }
}

struct Case {
    name: String,
    parts: Vec<Part>,
}

impl Case {
    fn read(line: &str) -> Option<Case> {
        let (name, mut numbers) = numbers(line)?;
        let parts: Option<Vec<Part>> = form(name).chars().map(|of| part(of, &mut numbers)).collect();
        let mut case = Case { name: name.into(), parts: parts? };
        if let ("sheet" | "print", [Part::Bytes(bytes)]) = (case.name.as_str(), case.parts.as_slice())
            && let Some(parts) = of_sheet(bytes)
        {
            case.parts = parts;
        }
        Some(case)
    }

    fn line(&self) -> String {
        if let "sheet" | "print" = self.name.as_str() {
            return sheet::line(&self.name, &bytes_of(&self.parts));
        }
        let mut line = self.name.clone();
        for part in &self.parts {
            match part {
                Part::Number(n) => write!(line, " {n}").expect("a string takes it"),
                Part::Records(words) | Part::Answers(words) => line += &list(words),
                Part::Bytes(bytes) => line += &sheet::line("", bytes),
            }
        }
        line
    }
}

fn part(of: char, numbers: &mut impl Iterator<Item = u64>) -> Option<Part> {
    let first = numbers.next()?;
    if of == 'n' {
        return Some(Part::Number(first));
    }
    let length = usize::try_from(first).ok().filter(|&n| n <= MOST)?;
    if of == 'b' {
        let given = usize::try_from(numbers.next()?).ok()?;
        let mut bytes: Vec<u8> = numbers.take(given).map(|n| n as u8).collect();
        bytes.resize(length, 0);
        return Some(Part::Bytes(bytes));
    }
    let words: Vec<u32> = numbers.take(length).map(|n| n as u32).collect();
    Some(if of == 'r' { Part::Records(words) } else { Part::Answers(words) })
}

/// Limit, rate, QPI, records, answers and memory, where the bytes hold that many.
fn of_sheet(bytes: &[u8]) -> Option<Vec<Part>> {
    let words: Vec<u32> = bytes.as_chunks().0.iter().map(|&b| u32::from_le_bytes(b)).collect();
    let &[limit, rate, qpi, records, answers] = words.first_chunk::<5>()?;
    let after = 5 + usize::try_from(records).ok()?.checked_mul(8)?;
    let end = after.checked_add(usize::try_from(answers).ok()?)?;
    let (records, answers) = (words.get(5..after)?.to_vec(), words.get(after..end)?.to_vec());
    let mut parts: Vec<Part> = [limit, rate, qpi].map(|n| Part::Number(u64::from(n))).to_vec();
    parts.extend([Part::Records(records), Part::Answers(answers), Part::Bytes(bytes[4 * end..].to_vec())]);
    Some(parts)
}

fn bytes_of(parts: &[Part]) -> Vec<u8> {
    let le = |words: &[u32]| words.iter().flat_map(|w| w.to_le_bytes()).collect::<Vec<u8>>();
    match parts {
        [Part::Number(a), Part::Number(b), Part::Number(c), Part::Records(r), Part::Answers(w), Part::Bytes(m)] => {
            let header = [*a as u32, *b as u32, *c as u32, (r.len() / 8) as u32, w.len() as u32];
            [le(&header), le(r), le(w), m.clone()].concat()
        }
        [Part::Bytes(bytes)] => bytes.clone(),
        _ => Vec::new(),
    }
}

/// What is left of a list when a stretch of it goes: halves first, single ones last and only of a short list; or its last.
fn shorter<T: Clone>(list: &[T], unit: usize) -> Vec<Vec<T>> {
    let mut lists = Vec::new();
    let mut size = list.len() / unit;
    while size > 0 && list.len() / unit / size <= FEW {
        let stretches = list.len() / unit / size;
        lists.extend((0..stretches).map(|i| [&list[..i * size * unit], &list[(i + 1) * size * unit..]].concat()));
        size /= 2;
    }
    lists.push(list[..list.len().saturating_sub(1) / unit * unit].to_vec());
    lists
}

/// A list with one element in place of another, for each place and each of its replacements.
fn replaced<T: Copy + PartialEq>(list: &[T], by: impl Fn(T) -> Vec<T>) -> Vec<Vec<T>> {
    let most = list.len().min(FEW);
    let each =
        (0..most).flat_map(|i| by(list[i]).into_iter().filter(move |&new| new != list[i]).map(move |new| (i, new)));
    let with = |(i, new)| {
        let mut list = list.to_vec();
        list[i] = new;
        list
    };
    each.map(with).collect()
}

/// Records with one taken out; the nexts behind it follow.
fn fewer(words: &[u32]) -> Vec<Vec<u32>> {
    let mut lists = shorter(words, 8);
    lists.retain(|l| l.len() + 8 != words.len());
    for out in 0..words.len() / 8 {
        let mut left = [&words[..8 * out], &words[8 * out + 8..]].concat();
        let (number, after) = (out as u32 + 1, words[8 * out + 7]);
        for next in left.iter_mut().skip(7).step_by(8) {
            let led_on = if *next == number { after } else { *next };
            *next = if led_on > number { led_on - 1 } else { led_on };
        }
        lists.push(left);
    }
    lists
}

fn smaller(part: &Part) -> Vec<Part> {
    match part {
        Part::Number(n) => [0, 1, n / 2, n.saturating_sub(1)].map(Part::Number).to_vec(),
        Part::Records(words) => {
            let numbers = replaced(words, |w| vec![0, w / 2, w.saturating_sub(1)]);
            fewer(words).into_iter().chain(numbers).map(Part::Records).collect()
        }
        Part::Answers(words) => {
            let bits = replaced(words, |w| [0, 1 << 31, 0xFF << 16, 0xFF].map(|mask| w & mask).to_vec());
            let zero = vec![0; words.len()];
            shorter(words, 1).into_iter().chain(bits).chain([zero]).map(Part::Answers).collect()
        }
        Part::Bytes(bytes) => {
            let zeros = replaced(bytes, |_| vec![0]);
            shorter(bytes, 1).into_iter().chain(zeros).map(Part::Bytes).collect()
        }
    }
}

/// The lines that make one part of a case smaller, the smallest first. None where the line cannot be taken apart.
pub fn candidates(line: &str) -> Vec<String> {
    let Some(mut case) = Case::read(line) else { return Vec::new() };
    let (whole_line, mut lines) = (case.line(), Vec::new());
    for at in 0..case.parts.len() {
        let whole = case.parts[at].clone();
        for part in smaller(&whole) {
            case.parts[at] = part;
            lines.push(case.line());
        }
        case.parts[at] = whole;
    }
    lines.retain(|l| size(l) < size(&whole_line));
    lines.sort_by(|a, b| size(a).cmp(&size(b)));
    lines.dedup();
    lines
}

/// Shorter lines are smaller; of equally long ones the first in order.
pub fn size(line: &str) -> (usize, &str) {
    (line.len(), line)
}

#[cfg(test)]
mod tests {
    use super::*;

    /// Follows the smallest candidate that still holds.
    fn smallest(line: &str, holds: impl Fn(&str) -> bool) -> String {
        let mut line = line.to_string();
        while let Some(next) = candidates(&line).into_iter().find(|l| holds(l)) {
            line = next;
        }
        line
    }

    #[test]
    fn lines_are_read_back() {
        for line in [
            "open 1 2 1 4 0 1 1 0 1 0 5000 6000 7000 8000 1 3 20 2 0x1 0xffffffff",
            "quadread 1 99 5 2 2 7 8 80 1 3 1 9 1 0x5",
            "transaction 2 40 9000 8 0x1 0x0 0x2 0x9 0x9 0x9 0x9 0x0 2 2 161 91 1 0x80000000",
            "sheet 7 2 1 1",
        ] {
            assert_eq!(Case::read(line).unwrap().line(), line);
        }
        assert!(Case::read("flush 1 9 2 0").is_some_and(|c| c.line() == "flush 1 9 1 0x0"));
        assert!(candidates("read 1 9 0x1000000 0 0").is_empty() && candidates("write 1").is_empty());
    }

    #[test]
    fn a_record_taken_out_is_led_around() {
        let mut words = vec![0; 24];
        (words[7], words[15]) = (2, 3);
        let nexts = |w: &Vec<u32>| w.iter().skip(7).step_by(8).copied().collect::<Vec<u32>>();
        assert!(fewer(&words).iter().filter(|w| w.len() == 16).all(|w| nexts(w) == [2, 0]));
    }

    #[test]
    fn shrinks() {
        let line = "write 5 400 70 3 1 2 9 9 0x5 0x6 0x7 0x8 0x80ff1234 0x9 0xa 0xb 0xc";
        assert_eq!(smallest(line, |l| l.contains("0x8")), "write 0 0 0 0 1 0x8");
        let records = "transaction 1 90 7 24 1 0 2 9 9 9 9 2 5 1 9 9 9 9 9 3 2 0 1 9 9 9 9 0 2 2 161 91 0";
        let kept = |l: &str| Case::read(l).is_some_and(|c| matches!(&c.parts[3], Part::Records(r) if r.contains(&5)));
        assert_eq!(smallest(records, kept), "transaction 0 0 0 8 0x5 0x0 0x0 0x0 0x0 0x0 0x0 0x0 0 0 0");
    }

    #[test]
    fn a_sheet_shrinks_by_its_parts() {
        let words = [2, 9, 1, 1, 3, 6, 9, 9, 9, 9, 9, 9, 0, 7, 8, 9u32];
        let bytes: Vec<u8> = words.iter().flat_map(|w| w.to_le_bytes()).chain([3, 4, 5]).collect();
        let flushes = |l: &str| {
            Case::read(l)
                .is_some_and(|c| matches!(&c.parts[..], [_, _, _, Part::Records(r), ..] if r.first() == Some(&6)))
        };
        let small = smallest(&sheet::line("sheet", &bytes), flushes);
        assert_eq!(
            small,
            sheet::line(
                "sheet",
                &bytes_of(
                    &of_sheet(&[[0; 12].to_vec(), vec![1, 0, 0, 0, 0, 0, 0, 0, 6], vec![0; 31]].concat()).unwrap()
                )
            )
        );
    }
}
