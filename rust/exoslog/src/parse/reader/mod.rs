//! Reads a line of words from left to right.

mod data;

pub(super) use data::{Behind, NOTHING};

use crate::mistakes::{Mistake, Place};

/// A line, and how far it is read.
pub(super) struct Reader<'a> {
    row: usize,
    line: &'a [u8],
    at: usize,
}

impl<'a> Reader<'a> {
    pub(super) fn new(row: usize, line: &'a [u8]) -> Self {
        let line = line.strip_suffix(b"\r").unwrap_or(line);
        Reader { row, line, at: 0 }
    }

    /// Reads a number, decimal or `0x` and hex digits, up to the most.
    pub(super) fn number(&mut self, what: &str, most: u16) -> Result<u16, Mistake> {
        let word = self.peek();
        match value(word).filter(|&value| value <= most) {
            Some(value) => {
                self.take(word.len());
                Ok(value)
            }
            None => Err(self.mistake(format!("{what} 0 to {most}"))),
        }
    }

    pub(super) fn byte(&mut self, what: &str) -> Result<u8, Mistake> {
        Ok(self.number(what, u8::MAX.into())? as u8)
    }

    /// Nothing more may stand on the line.
    pub(super) fn end(&mut self) -> Result<(), Mistake> {
        if self.is_at_end() {
            Ok(())
        } else {
            Err(self.mistake("the end of the line".to_string()))
        }
    }

    /// Skips blanks; the next word, empty at a comment or the line's end.
    pub(super) fn peek(&mut self) -> &'a [u8] {
        self.skip_blanks();
        let rest = &self.line[self.at..];
        let end = rest.iter().position(|&byte| ends_word(byte));
        &rest[..end.unwrap_or(rest.len())]
    }

    /// Skips blanks; whether the line ends here or a comment begins.
    pub(super) fn is_at_end(&mut self) -> bool {
        self.skip_blanks();
        matches!(self.line.get(self.at), None | Some(b'#'))
    }

    /// Skips blanks; how far the line is read.
    pub(super) fn place(&mut self) -> usize {
        self.skip_blanks();
        self.at
    }

    fn skip_blanks(&mut self) {
        let rest = &self.line[self.at..];
        self.at += rest.iter().take_while(|byte| is_blank(**byte)).count();
    }

    pub(super) fn take(&mut self, length: usize) {
        self.at += length;
    }

    /// The next word is not what was expected.
    pub(super) fn mistake(&mut self, expected: String) -> Mistake {
        let length = self.peek().len();
        self.mistake_in_word(&expected, length)
    }

    /// The next bytes are not what was expected. Columns are characters; before
    /// a mistake all that was read is ASCII.
    fn mistake_in_word(&self, expected: &str, length: usize) -> Mistake {
        let rest = &self.line[self.at..];
        let found = &rest[..length.min(rest.len())];
        let width = String::from_utf8_lossy(found).chars().count().max(1);
        Mistake {
            place: self.place_of(self.at, width),
            expected: expected.to_string(),
            found: found_words(found),
        }
    }

    /// What was read from a place on is not what was expected.
    pub(super) fn mistake_since(&self, start: usize, expected: String, found: String) -> Mistake {
        Mistake {
            place: self.place_since(start),
            expected,
            found,
        }
    }

    /// Where what was read from a place on stands.
    pub(super) fn place_since(&self, start: usize) -> Place {
        self.place_of(start, self.at - start)
    }

    fn place_of(&self, start: usize, width: usize) -> Place {
        Place {
            line: self.row,
            column: start + 1,
            width,
        }
    }
}

fn is_blank(byte: u8) -> bool {
    matches!(byte, b' ' | b'\t')
}

/// Whether a byte ends a word: a blank, or what begins a comment.
fn ends_word(byte: u8) -> bool {
    is_blank(byte) || byte == b'#'
}

/// The most bytes of a word that a message repeats.
const LONGEST_FOUND: usize = 32;

fn found_words(found: &[u8]) -> String {
    if found.is_empty() {
        return "the end of the line".to_string();
    }
    let (start, dots) = match found.get(..LONGEST_FOUND) {
        Some(start) if found.len() > LONGEST_FOUND => (start, "..."),
        _ => (found, ""),
    };
    format!("\"{}{dots}\"", start.escape_ascii())
}

/// The value of a number, decimal or `0x` and hex digits.
fn value(word: &[u8]) -> Option<u16> {
    let word = std::str::from_utf8(word).ok()?;
    let (digits, radix) = match word.strip_prefix("0x") {
        Some(digits) => (digits, 16),
        None => (word, 10),
    };
    if digits.starts_with('+') {
        return None;
    }
    u16::from_str_radix(digits, radix).ok()
}
