//! Modes that leave QPI (document 02, request 1): which words the call of a case writes to 038, read off the line, and
//! the answer that is due.

use crate::due::{buffer, bytes, sheet_word, some};
use crate::numbers::{Numbers, numbers};
use crate::walk::frame;

/// The bytes of a part of a transfer in place.
const PART: u64 = 256;

/// The words that the call writes to 038, in their order, if all goes well: whether each is a mode's that leaves QPI.
pub fn words(line: &str) -> Vec<bool> {
    let named = numbers(line).and_then(|(name, mut numbers)| of_call(name, &mut numbers));
    named.unwrap_or_default()
}

fn of_call(name: &str, f: &mut Numbers) -> Option<Vec<bool>> {
    if name == "sheet" || name == "print" {
        return Some(of_sheet(&bytes(f)?));
    }
    some(f, 2)?;
    match name {
        "mode" => Some(mode(some(f, 2)?[1])),
        "quadread" => {
            let (rate, command, timing) = (f.next()?, buffer(f)?, some(f, 2)?);
            Some(quad(framed(command, [rate, timing[0], timing[1]]), buffer(f)?))
        }
        "quadwrite" => Some(quad(buffer(f)?, buffer(f)?)),
        _ => None,
    }
}

/// One word, kept as it was read but for its counts, where the phase is not empty.
fn phase(length: u64) -> Vec<bool> {
    vec![false; usize::from(length > 0)]
}

fn mode(mode: u64) -> Vec<bool> {
    vec![mode != 6]
}

fn quad(command: u64, data: u64) -> Vec<bool> {
    [phase(command), mode(4), phase(data), mode(0)].concat()
}

fn framed(command: u64, timing: [u64; 3]) -> u64 {
    frame(command as usize, timing.map(|n| n as u32)) as u64
}

/// Those of the records on the chain.
fn of_sheet(bytes: &[u64]) -> Vec<bool> {
    let [rate, records] = [1, 3].map(|i| sheet_word(bytes, i));
    let mut words = Vec::new();
    let (mut at, mut next) = (0, records.min(1));
    while next > at && next <= records && 20 + 32 * next <= bytes.len() as u64 {
        at = next;
        let r: [u64; 8] = std::array::from_fn(|i| sheet_word(bytes, 8 * at as usize - 3 + i));
        words.extend(of_record(r, rate));
        next = r[7];
    }
    words
}

fn of_record([kind, f1, f2, f3, f4, _, f6, _]: [u64; 8], rate: u64) -> Vec<bool> {
    match kind {
        1 | 2 => phase(f2),
        3 => [phase(f4), phase(f2)].concat(),
        4 => vec![false; 2 * f2.div_ceil(PART) as usize],
        7 => mode(f1),
        8 => quad(framed(f2, [rate, f3, f4]), f6),
        9 => quad(f2, f6),
        _ => Vec::new(),
    }
}

/// The Rust's answer with bit 31 clear in those words.
pub fn left(oracle: &str, words: &[bool]) -> String {
    let mut words = words.iter();
    let clear = |word: u32| format!("w 0038 {:08x}\n", word & 0x7FFF_FFFF);
    let due = |line: &str| {
        let word = line.strip_prefix("w 0038 ").filter(|_| words.next() == Some(&true));
        word.and_then(|w| u32::from_str_radix(w, 16).ok()).map_or_else(|| format!("{line}\n"), clear)
    };
    oracle.lines().map(due).collect()
}

#[cfg(test)]
mod tests {
    use super::{left, words};

    #[test]
    fn words_by_call() {
        for (line, due) in [
            ("mode 1 9 0 0 0", "y"),
            ("mode 1 9 1 6 0", "n"),
            ("write 1 9 1 1 5 0", ""),
            ("quadwrite 1 9 1 0 1 0 0", "nyny"),
            ("quadwrite 1 9 0 0 1 0 0", "yny"),
            ("quadwrite 1 9 1 0 0 0 0", "nyy"),
            ("quadread 1 9 100000000 0 0 80 0 1 0 0", "nyny"),
            ("quadread 1 9 100000000 0 0 0 0 1 0 0", "yny"),
            ("transaction 1 9 5 8 1 0 1 0 0 0 0 0 1 0 0", ""),
        ] {
            let found: String = words(line).iter().map(|&left| if left { 'y' } else { 'n' }).collect();
            assert_eq!(found, due, "{line}");
        }
    }

    /// Sheets of three records, the second not on the chain.
    #[test]
    fn words_of_a_sheet() {
        for (first, last, due) in [
            ([7, 6, 0, 0, 0, 0, 0, 3], [7, 0, 0, 0, 0, 0, 0, 0], "ny"),
            ([4, 0, 257, 0, 0, 0, 0, 3], [9, 0, 0, 0, 0, 0, 1, 0], "nnnnyny"),
            ([3, 0, 0, 0, 1, 0, 0, 3], [8, 0, 1, 0, 0, 0, 0, 0], "nnyy"),
            ([7, 1, 0, 0, 0, 0, 0, 0], [7, 1, 0, 0, 0, 0, 0, 0], "y"),
        ] {
            let words_given = [[1, 1, 1, 3, 0].as_slice(), &first, &[7, 2, 0, 0, 0, 0, 0, 3], &last].concat();
            let bytes: Vec<String> =
                words_given.iter().flat_map(|w: &u32| w.to_le_bytes()).map(|b| b.to_string()).collect();
            let line = format!("sheet {} {} {}", bytes.len() + 300, bytes.len(), bytes.join(" "));
            let found: String = words(&line).iter().map(|&left| if left { 'y' } else { 'n' }).collect();
            assert_eq!(found, due, "{first:?}");
        }
    }

    #[test]
    fn only_bit_31_of_only_those() {
        let oracle = "w 0038 ffffffff\nr 0038 ffffffff\nw 0038 a0000000\nw 0038 7fffffff\nw 0038 ffffffff\n";
        let due = "w 0038 ffffffff\nr 0038 ffffffff\nw 0038 20000000\nw 0038 7fffffff\nw 0038 ffffffff\n";
        assert_eq!(left(oracle, &[false, true, true]), due);
    }
}
