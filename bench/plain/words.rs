//! Lines into words, and words into numbers.

use std::ops::Range;

/// The words of a line, as places in it.
pub struct Words {
    ranges: Vec<Range<usize>>,
}

impl Words {
    pub fn new() -> Words {
        Words {
            ranges: Vec::with_capacity(16),
        }
    }

    /// Cuts the line at spaces, tabs, carriage returns and its line feed.
    pub fn cut(&mut self, line: &[u8]) {
        self.ranges.clear();
        let mut start = 0;
        for (at, byte) in line.iter().enumerate() {
            if matches!(byte, b' ' | b'\t' | b'\r' | b'\n') {
                if start < at {
                    self.ranges.push(start..at);
                }
                start = at + 1;
            }
        }
        if start < line.len() {
            self.ranges.push(start..line.len());
        }
    }

    pub fn count(&self) -> usize {
        self.ranges.len()
    }

    pub fn get<'a>(&self, line: &'a [u8], at: usize) -> &'a [u8] {
        &line[self.ranges[at].clone()]
    }
}

/// A number from 0 to `most`.
pub fn natural(word: &[u8], most: u64) -> Option<u64> {
    if word.is_empty() {
        return None;
    }
    let mut value: u64 = 0;
    for byte in word {
        if !byte.is_ascii_digit() {
            return None;
        }
        value = value.checked_mul(10)?.checked_add(u64::from(byte - b'0'))?;
    }
    (value <= most).then_some(value)
}

/// A number that fits 32 bits with a sign.
pub fn signed(word: &[u8]) -> Option<i64> {
    match word.strip_prefix(b"-") {
        Some(digits) => natural(digits, 2_147_483_648).map(|n| -(n as i64)),
        None => natural(word, 2_147_483_647).map(|n| n as i64),
    }
}
