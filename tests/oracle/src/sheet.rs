//! A sheet: its bytes taken apart as document 01 lays them out.

/// The most bytes of a sheet.
const MOST: usize = 65_536;

/// The words of a header: limit, rate, QPI, record count, answer count.
const HEADER: usize = 5;

pub struct Sheet {
    pub limit: u32,
    pub rate: u32,
    pub qpi: bool,
    /// Eight words for each record.
    pub records: Vec<u32>,
    pub answers: Vec<u32>,
    /// Where the memory begins in the bytes.
    pub memory: usize,
}

impl Sheet {
    /// Nothing where document 01 refuses the bytes (13): the Rust has no such thing.
    pub fn read(bytes: &[u8]) -> Option<Self> {
        let word = |b: &[u8]| u32::from_le_bytes(b.try_into().unwrap());
        let words: Vec<u32> = bytes.chunks_exact(4).map(word).collect();
        let &[limit, rate, qpi, records, answers] = words.first_chunk::<HEADER>()?;
        let after_records = HEADER as u64 + 8 * u64::from(records);
        let needed = after_records + u64::from(answers);
        if bytes.len() > MOST || 4 * needed > bytes.len() as u64 || qpi > 1 {
            return None;
        }
        let (after_records, needed) = (after_records as usize, needed as usize);
        Some(Sheet {
            limit,
            rate,
            qpi: qpi == 1,
            records: words[HEADER..after_records].to_vec(),
            answers: words[after_records..needed].to_vec(),
            memory: 4 * needed,
        })
    }
}

#[cfg(test)]
mod tests {
    use super::*;

    /// A header and so many bytes behind it.
    fn sheet(header: [u32; HEADER], more: usize) -> Option<Sheet> {
        let mut bytes: Vec<u8> = header.iter().flat_map(|w| w.to_le_bytes()).collect();
        bytes.extend((0..more).map(|i| i as u8));
        Sheet::read(&bytes)
    }

    #[test]
    fn parts() {
        let s = sheet([7, 8, 1, 1, 2], 43).unwrap();
        assert_eq!((s.limit, s.rate, s.qpi, s.memory), (7, 8, true, 60));
        assert_eq!((s.records[0], s.records[7]), (0x0302_0100, 0x1F1E_1D1C));
        assert_eq!(s.answers, [0x2322_2120, 0x2726_2524]);
    }

    #[test]
    fn refused() {
        assert!(sheet([0; HEADER], MOST - 20).is_some());
        assert!(sheet([0; HEADER], MOST - 19).is_none());
        assert!(Sheet::read(&[0; 19]).is_none());
        assert!(sheet([1, 0, 2, 0, 0], 9).is_none());
        assert!(sheet([1, 0, 0, 1, 2], 39).is_none());
        assert!(sheet([1, 0, 0, 0x0800_0000, 0], 9).is_none());
        assert!(sheet([1, 0, 0, 0, 0x4000_0000], 9).is_none());
        assert!(sheet([1, 0, 0, u32::MAX, u32::MAX], 9).is_none());
    }
}
