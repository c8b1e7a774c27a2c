//! The words of a case line.

use std::str::SplitWhitespace;

pub struct Words<'a>(SplitWhitespace<'a>);

impl<'a> Words<'a> {
    pub fn new(line: &'a str) -> Self {
        Words(line.split_whitespace())
    }

    pub fn name(&mut self) -> Result<&'a str, String> {
        self.0.next().ok_or_else(|| String::from("no name"))
    }

    pub fn number(&mut self) -> Result<u64, String> {
        let word = self.0.next().ok_or_else(|| String::from("a number is missing"))?;
        let read = match word.strip_prefix("0x") {
            Some(digits) => u64::from_str_radix(digits, 16),
            None => word.parse(),
        };
        read.map_err(|e| format!("{word}: {e}"))
    }

    pub fn u32(&mut self) -> Result<u32, String> {
        let n = self.number()?;
        u32::try_from(n).map_err(|_| format!("{n} is above 32 bits"))
    }

    pub fn usize(&mut self) -> Result<usize, String> {
        self.number().map(|n| n as usize)
    }

    pub fn flag(&mut self) -> Result<bool, String> {
        self.number().map(|n| n != 0)
    }

    /// A number of at most `most`.
    pub fn up_to(&mut self, most: u32) -> Result<u32, String> {
        let n = self.u32()?;
        if n > most { Err(format!("{n} is above {most}")) } else { Ok(n) }
    }

    /// `COUNT w1 .. wCOUNT`.
    pub fn list(&mut self) -> Result<Vec<u32>, String> {
        let count = self.usize()?;
        (0..count).map(|_| self.u32()).collect()
    }

    /// `LENGTH GIVEN b1 .. bGIVEN`, the rest zero.
    pub fn bytes(&mut self) -> Result<Vec<u8>, String> {
        let length = self.usize()?;
        let given = self.usize()?;
        if given > length {
            return Err(format!("{given} bytes given for {length}"));
        }
        let mut bytes = vec![0; length];
        for b in &mut bytes[..given] {
            *b = self.up_to(255)? as u8;
        }
        Ok(bytes)
    }

    pub fn end(&mut self) -> Result<(), String> {
        match self.0.next() {
            Some(word) => Err(format!("{word} is one word too many")),
            None => Ok(()),
        }
    }
}
