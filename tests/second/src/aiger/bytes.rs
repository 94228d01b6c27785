//! Numbers, separators and differences, each read at a place in a file.

use super::{refuse, Refusal};
use std::ops::RangeInclusive;

/// A number and where its first byte stands.
#[derive(Clone, Copy, Debug)]
pub struct Number {
    /// Held at the largest u64 if it's larger: no check of the paper tells those apart.
    pub value: u64,
    pub place: usize,
}

/// Reads on from a place. The end of the file and a wrong byte are refused alike, because `at` is the
/// file's length when the file has ended.
pub struct Cursor<'a> {
    pub file: &'a [u8],
    pub at: usize,
}

impl<'a> Cursor<'a> {
    pub fn new(file: &'a [u8], at: usize) -> Cursor<'a> {
        Cursor { file, at }
    }

    pub fn peek(&self) -> Option<u8> {
        self.file.get(self.at).copied()
    }

    /// The next byte, whatever it is.
    pub fn any(&mut self) -> Result<u8, Refusal> {
        match self.peek() {
            Some(byte) => {
                self.at += 1;
                Ok(byte)
            }
            None => refuse(1, self.at),
        }
    }

    pub fn one_of(&mut self, wanted: &[u8]) -> Result<u8, Refusal> {
        match self.peek() {
            Some(byte) if wanted.contains(&byte) => self.any(),
            _ => refuse(1, self.at),
        }
    }

    /// "0" ends at once, so a digit after it is left for the next check to refuse.
    pub fn number(&mut self) -> Result<Number, Refusal> {
        let place = self.at;
        let first = self.one_of(b"0123456789")?;
        let mut value = u64::from(first - b'0');
        if first != b'0' {
            while let Some(digit @ b'0'..=b'9') = self.peek() {
                value = value.saturating_mul(10).saturating_add(u64::from(digit - b'0'));
                self.at += 1;
            }
        }
        Ok(Number { value, place })
    }

    /// A line of so many numbers with one space between them.
    pub fn line(&mut self, fields: RangeInclusive<usize>) -> Result<Vec<Number>, Refusal> {
        let mut numbers = vec![self.number()?];
        while numbers.len() < *fields.end() && (numbers.len() < *fields.start() || self.peek() == Some(b' ')) {
            self.one_of(b" ")?;
            numbers.push(self.number()?);
        }
        self.one_of(b"\n")?;
        Ok(numbers)
    }

    /// A difference by its own bytes alone, 1 and 16; the caller knows what it's taken from.
    pub fn difference(&mut self) -> Result<Number, Refusal> {
        let place = self.at;
        let mut value = 0;
        for group in 0..3 {
            let byte = self.any()?;
            value += u64::from(byte % 128) << (7 * group);
            if byte < 128 {
                let longer_than_needed = group > 0 && byte == 0;
                return if longer_than_needed {
                    refuse(16, place)
                } else {
                    Ok(Number { value, place })
                };
            }
        }
        refuse(16, place)
    }
}
