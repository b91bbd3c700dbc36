//! Reads data: pairs of hex digits, and strings.

use super::{ends_word, Reader};
use crate::mistakes::{Mistake, Place};
use crate::parse::one_of;

/// What may stand behind pairs of hex digits.
#[derive(Clone, Copy)]
pub(in crate::parse) struct Behind<'a> {
    /// The words that end them, as the line's end does.
    pub(in crate::parse) words: &'a [&'a str],
    /// What a message says may stand there.
    pub(in crate::parse) told: &'a [&'a str],
}

/// Nothing stands behind them on the line.
pub(in crate::parse) const NOTHING: Behind = Behind {
    words: &[],
    told: &["the end of the line"],
};

impl Reader<'_> {
    /// Reads pairs of hex digits, with blanks between pairs or none, and hands
    /// each byte on with its place.
    pub(in crate::parse) fn hex(
        &mut self,
        what: &str,
        behind: Behind,
        mut put: impl FnMut(u8, Place),
    ) -> Result<(), Mistake> {
        let is_end =
            |word: &[u8]| word.is_empty() || behind.words.iter().any(|end| end.as_bytes() == word);
        let mut word = self.peek();
        if is_end(word) || !word[0].is_ascii_hexdigit() {
            return Err(self.mistake(what.to_string()));
        }
        while !is_end(word) {
            for _ in 0..word.len().div_ceil(2) {
                let start = self.at;
                let byte = self.pair()?;
                put(byte, self.place_since(start));
            }
            word = self.peek();
            // a word that is no data may begin with a hex digit: "end"
            if !is_end(word) && !word.iter().all(u8::is_ascii_hexdigit) {
                let pairs = &["pairs of hex digits"];
                return Err(self.mistake(one_of(&[pairs, behind.told].concat())));
            }
        }
        Ok(())
    }

    pub(in crate::parse) fn pair(&mut self) -> Result<u8, Mistake> {
        let high = self.digit("a hex digit")?;
        let low = self.digit("the second hex digit of a byte")?;
        Ok(high << 4 | low)
    }

    fn digit(&mut self, what: &str) -> Result<u8, Mistake> {
        let byte = self.line.get(self.at).copied();
        match byte.and_then(|byte| char::from(byte).to_digit(16)) {
            Some(digit) => {
                self.take(1);
                Ok(digit as u8)
            }
            None => Err(self.mistake_in_word(what, 1)),
        }
    }

    /// Reads a string from its double quote on, and hands each byte on with its
    /// place. With the closing quote the word ends.
    pub(in crate::parse) fn string(
        &mut self,
        mut put: impl FnMut(u8, Place),
    ) -> Result<(), Mistake> {
        self.take(1);
        while self.line.get(self.at) != Some(&b'"') {
            let start = self.at;
            let byte = self.string_byte()?;
            put(byte, self.place_since(start));
        }
        self.take(1);
        match self.line.get(self.at) {
            Some(&byte) if !ends_word(byte) => {
                Err(self.mistake("a blank or the end of the line".to_string()))
            }
            _ => Ok(()),
        }
    }

    fn string_byte(&mut self) -> Result<u8, Mistake> {
        const PRINTABLE: &str = "a printable byte or \\x and two hex digits";
        match self.line.get(self.at) {
            Some(b'\\') => self.escape(),
            Some(&byte @ b' '..=b'~') => {
                self.take(1);
                Ok(byte)
            }
            Some(_) => Err(self.mistake_in_word(PRINTABLE, 1)),
            None => Err(self.mistake_in_word("a closing double quote", 1)),
        }
    }

    /// Reads `\\`, `\"`, or `\x` and two hex digits.
    fn escape(&mut self) -> Result<u8, Mistake> {
        match self.line.get(self.at + 1) {
            Some(&byte @ (b'\\' | b'"')) => {
                self.take(2);
                Ok(byte)
            }
            Some(b'x') => {
                self.take(2);
                self.pair()
            }
            _ => Err(self.mistake_in_word("\\\\, \\\" or \\x and two hex digits", 2)),
        }
    }
}
