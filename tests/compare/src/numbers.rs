//! The name and the numbers of a case line.

use std::iter::MapWhile;
use std::str::SplitWhitespace;

/// The numbers behind a name, up to the first word that is none.
pub type Numbers<'a> = MapWhile<SplitWhitespace<'a>, fn(&str) -> Option<u64>>;

fn number(word: &str) -> Option<u64> {
    match word.strip_prefix("0x") {
        Some(digits) => u64::from_str_radix(digits, 16).ok(),
        None => word.parse().ok(),
    }
}

/// Nothing where the line has no word.
pub fn numbers(line: &str) -> Option<(&str, Numbers<'_>)> {
    let mut words = line.split_whitespace();
    Some((words.next()?, words.map_while(number)))
}
