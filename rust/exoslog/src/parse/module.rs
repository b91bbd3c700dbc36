//! A module's items to its stream.

use super::items::Around;
use super::reader::{Behind, Reader};
use crate::mistakes::Mistake;
use crate::module::{bits_left, is_broken_off, most_of, with_rest, LAST_PAGE};
use crate::words::counted;
use exos_modules::Module;

/// The words that begin an item, or the rest behind the items.
pub(super) const WORDS: [&str; 8] = [
    "bytes", "word", "page", "restore", "move", "end", "illegal", "rest",
];

/// In a stream.
const AROUND: Around = Around {
    behind_data: Behind {
        words: &WORDS,
        told: &WORDS,
    },
    last_page: LAST_PAGE,
};

impl Reader<'_> {
    /// Reads items up to one that "breaks off the reading" and the rest behind
    /// it, or up to the rest that stands in its place.
    pub(super) fn module(&mut self) -> Result<Vec<u8>, Mistake> {
        let mut module = Module::of(&[]);
        while !is_broken_off(&module) {
            let start = self.place();
            match self.one_word(&WORDS, "")? {
                "rest" => return self.module_rest(&module),
                word => self.items(word, start, &AROUND, |item, _| module.items.push(item))?,
            }
        }
        if self.is_at_end() {
            return Ok(module.stream());
        }
        if self.peek() != b"rest" {
            return Err(self.mistake("rest or the end of the line".to_string()));
        }
        self.take(b"rest".len());
        self.module_rest(&module)
    }

    /// Reads the rest behind the items, to the stream of both. The first byte
    /// has no more than the bits that the items leave of their last byte.
    fn module_rest(&mut self, module: &Module) -> Result<Vec<u8>, Mistake> {
        let start = self.place();
        let rest = self.data()?;
        let left = bits_left(module);
        let most = most_of(left);
        let found = match rest.first() {
            None if left > 0 => "no byte".to_string(),
            Some(first) if left > 0 && *first > most => format!("{first:02x}"),
            _ => return Ok(with_rest(module, &rest)),
        };
        let bits = counted(left, "bit");
        let expected = format!(
            "a first byte 00 to {most:02x}, for the {bits} that the items leave of their last byte"
        );
        Err(self.mistake_since(start, expected, found))
    }
}
