//! The sheet program, one process for each sheet.

use std::io::{self, Write};
use std::process::{Command, Stdio};

const PROGRAM: &str = concat!(env!("CARGO_MANIFEST_DIR"), "/../../target/bin/qspi_sheet");

/// What the program prints for these bytes. It reads before it writes, so that neither side waits for the other.
pub fn printed(bytes: &[u8]) -> io::Result<String> {
    let mut process = Command::new(PROGRAM).stdin(Stdio::piped()).stdout(Stdio::piped()).spawn()?;
    let mut stdin = process.stdin.take().expect("it is a pipe");
    // Of too long a sheet the program does not read the rest.
    let _ = stdin.write_all(bytes);
    drop(stdin);
    let output = process.wait_with_output()?;
    let mut text = String::from_utf8_lossy(&output.stdout).into_owned();
    if !output.status.success() {
        text.push_str(&format!("{}\n", output.status));
    }
    Ok(text)
}

#[cfg(test)]
mod tests {
    use std::time::{Duration, Instant};

    /// What the program prints, which it does at once.
    fn printed(bytes: &[u8]) -> String {
        let begun = Instant::now();
        let text = super::printed(bytes).unwrap();
        assert!(begun.elapsed() < Duration::from_secs(5));
        text
    }

    /// What the program prints for a header, more words, and zeros up to a length.
    fn sheet(header: [u32; 5], more: &[u32], length: usize) -> String {
        let words = header.iter().chain(more);
        let mut bytes: Vec<u8> = words.flat_map(|w| w.to_le_bytes()).collect();
        bytes.resize(length.max(bytes.len()), 0);
        printed(&bytes)
    }

    const SHEET: &str = "end 13 0 0 0 0\n";

    #[test]
    fn no_sheet() {
        assert_eq!(printed(&[]), SHEET);
        assert_eq!(printed(&[1; 19]), SHEET);
        assert_eq!(sheet([1, 0, 2, 0, 0], &[], 20), SHEET);
        assert_eq!(sheet([1, 0, 0, 0, 0], &[], 65_537), SHEET);
        assert_eq!(sheet([1, 0, 0, 0, 0], &[], 1_000_000), SHEET);
        assert_eq!(sheet([1, 0, 0, 0, 0], &[], 65_536), "end 0 0 0 0 0\n");
    }

    #[test]
    fn huge_counts() {
        for length in [20, 1000, 65_536] {
            assert_eq!(sheet([1, 0, 0, 0x0800_0000, 0], &[], length), SHEET);
            assert_eq!(sheet([1, 0, 0, 0, 0xFFFF_FFFF], &[], length), SHEET);
            assert_eq!(sheet([1, 0, 0, 0, 0x4000_0000], &[], length), SHEET);
            assert_eq!(sheet([1, 0, 0, 0x0400_0000, 0x2000_0000], &[], length), SHEET);
        }
    }

    /// A flush at limit FFFFFFFF hex whose answers are all unready: used up, or as many as the log or the sheet holds.
    #[test]
    fn unready_answers_only() {
        for (answers, end) in [
            (0, "end 11 0 0 0 0"),
            (3, "end 11 3 3 3 3"),
            (4095, "end 11 4095 4095 4095 4095"),
            (4096, "end 10 4096 4096 4096 4096"),
            (16_371, "end 10 4096 4096 4096 4096"),
        ] {
            let mut more = vec![6, 0, 0, 0, 0, 0, 0, 0];
            more.resize(8 + answers, 0x8000_0000);
            let printed = sheet([u32::MAX, 0, 0, 1, answers as u32], &more, 0);
            let polls = "r 0008 80000000\n".repeat(answers.min(4096));
            assert_eq!(printed, format!("{polls}{end}\n"));
        }
    }
}
