//! The bytes that a call received, as its log says.

use qspi::{Entry, Op};
use std::iter;

/// What a buffer holds when each byte got went to the next of these places, and no other byte was written.
pub fn received(given: &[u8], places: impl Iterator<Item = usize>, log: impl Iterator<Item = Entry>) -> Vec<u8> {
    let mut buffer = given.to_vec();
    for (entry, place) in log.filter(|entry| entry.op == Op::ByteGot).zip(places) {
        if let Some(byte) = buffer.get_mut(place) {
            *byte = entry.value as u8;
        }
    }
    buffer
}

/// The places that a chain receives into, one after the other.
pub fn places(words: &[u32]) -> impl Iterator<Item = usize> {
    let records = words.as_chunks::<8>().0;
    let first = if records.is_empty() { None } else { Some(1) };
    let next = move |&at: &usize| Some(records[at - 1][7] as usize).filter(|&next| next > at && next <= records.len());
    iter::successors(first, next).flat_map(move |at| {
        let (start, length) = match records[at - 1] {
            [2..=4, start, length, ..] | [8, _, _, _, _, start, length, _] => (start, length),
            _ => (0, 0),
        };
        (start as usize..).take(length as usize)
    })
}

/// The records of a sheet, and where its memory begins: behind the header's five words, the records and the answers.
/// Bytes that are too few have neither.
pub fn parts(bytes: &[u8]) -> (Vec<u32>, usize) {
    let words: Vec<u32> = bytes.as_chunks().0.iter().map(|&word| u32::from_le_bytes(word)).collect();
    let parts = words.first_chunk().and_then(|&[_, _, _, records, answers]| {
        let after_records = 5 + 8 * records as usize;
        let end = after_records + answers as usize;
        let records = words.get(5..after_records)?;
        (end <= words.len()).then(|| (records.to_vec(), 4 * end))
    });
    parts.unwrap_or((Vec::new(), bytes.len()))
}

#[cfg(test)]
mod tests {
    use super::*;

    /// Each byte got goes to the next place, and none past the buffer.
    #[test]
    fn bytes_by_a_log() {
        let entry = |op, value| Entry { op, place: 0x300, value };
        let log = [(Op::ByteGot, 0x107), (Op::Read, 1), (Op::ByteGot, 8), (Op::ByteGot, 9)].map(|(op, v)| entry(op, v));
        assert_eq!(received(&[1, 2, 3], [1, 0, 5].into_iter(), log.into_iter()), [8, 7, 3]);
    }

    /// A quad write, a quad read, a record off the chain, a transfer; then a next that leads nowhere.
    #[test]
    fn places_along_a_chain() {
        let records =
            [[9, 1, 2, 3, 4, 5, 6, 2], [8, 0, 9, 9, 9, 4, 2, 4], [2, 0, 9, 9, 9, 9, 9, 0], [3, 7, 3, 0, 9, 9, 9, 9]];
        assert_eq!(places(&records.concat()).collect::<Vec<usize>>(), [4, 5, 7, 8, 9]);
        assert_eq!(places(&[]).count(), 0);
    }

    #[test]
    fn parts_of_a_sheet() {
        let sheet = |words: &[u32]| parts(&words.iter().flat_map(|w| w.to_le_bytes()).collect::<Vec<u8>>());
        assert_eq!(sheet(&[1, 0, 0, 1, 1, 6, 0, 0, 0, 0, 0, 0, 0, 5, 7]), (vec![6, 0, 0, 0, 0, 0, 0, 0], 56));
        assert_eq!(sheet(&[1, 0, 0, 1, 1, 6, 0, 0, 0, 0, 0, 0, 0]), (Vec::new(), 52));
        assert_eq!(sheet(&[1, 0, 0, u32::MAX, u32::MAX]), (Vec::new(), 20));
        assert_eq!(parts(&[0; 19]), (Vec::new(), 19));
    }
}
