//! The items of a module, in words.

use super::one_of;
use super::reader::{Behind, Reader};
use crate::mistakes::{Mistake, Place};
use exos_modules::{byte, move_by, word, Item, What, END, ILLEGAL, RESTORE};

/// What stands around items: in a stream, or in a list.
pub(super) struct Around {
    /// What may stand behind the data of `bytes`.
    pub(super) behind_data: Behind<'static>,
    /// The last page that `page` takes.
    pub(super) last_page: u16,
}

impl Reader<'_> {
    /// Reads one of these words.
    pub(super) fn one_word(
        &mut self,
        words: &[&'static str],
        help: &str,
    ) -> Result<&'static str, Mistake> {
        let word = self.peek();
        match words.iter().find(|known| known.as_bytes() == word) {
            Some(known) => {
                self.take(word.len());
                Ok(known)
            }
            None => Err(self.mistake(one_of(words) + help)),
        }
    }

    /// Reads the items that begin with a word, which stands at `start`, and hands
    /// each on with its place.
    pub(super) fn items(
        &mut self,
        first: &str,
        start: usize,
        around: &Around,
        mut put: impl FnMut(Item, Place),
    ) -> Result<(), Mistake> {
        if first == "bytes" {
            return self.data_before(around.behind_data, |value, place| put(byte(value), place));
        }
        let item = match first {
            "word" => word(self.four_digits("a word")?),
            "page" => Item {
                what: What::SetPage,
                value: self.number("a page", around.last_page)?,
            },
            "restore" => RESTORE,
            "move" => move_by(self.four_digits("a move")?),
            "end" => END,
            _ => ILLEGAL,
        };
        put(item, self.place_since(start));
        Ok(())
    }

    fn four_digits(&mut self, what: &str) -> Result<u16, Mistake> {
        let digits = self.peek();
        let is_whole = digits.len() == 4 && digits.iter().all(u8::is_ascii_hexdigit);
        if !is_whole {
            let help = match digits {
                [b'0', b'x', ..] => " (without 0x)",
                [b'-', ..] => " (-1 is ffff)",
                _ => "",
            };
            return Err(self.mistake(format!("{what} as four hex digits{help}")));
        }
        Ok(u16::from_be_bytes([self.pair()?, self.pair()?]))
    }
}
