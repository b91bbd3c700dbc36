//! A list of items for the writer of modules, in words.

use super::items::Around;
use super::reader::{Behind, Reader};
use super::{each_line, lines, module};
use crate::mistakes::{Mistake, Place};
use crate::module::{ItemList, Start, MOST_ITEMS};
use std::mem;

/// The words of items, and the one that ends the list.
const WORDS: [&str; 6] = ["bytes", "word", "page", "restore", "move", "end"];

/// The word that may come first.
const START: &[u8] = b"start";

/// In a list. The words that stand in a stream alone end data too, so that a
/// message can say so.
const AROUND: Around = Around {
    behind_data: Behind {
        words: &module::WORDS,
        told: &[
            "bytes",
            "word",
            "page",
            "restore",
            "move",
            "end",
            "the end of the line",
        ],
    },
    last_page: u16::MAX,
};

/// The list of items in words, or every line's first mistake. Items are counted
/// where no line has one.
pub fn item_list(text: &[u8]) -> Result<ItemList, Vec<Mistake>> {
    let mut reading = Reading::default();
    each_line(text, |reader| reader.list_line(&mut reading))?;
    match reading.one_too_many {
        None => Ok(reading.list),
        Some(place) => Err(vec![Mistake {
            place,
            expected: format!("at most {MOST_ITEMS} items"),
            found: "one more".to_string(),
        }]),
    }
}

/// Whether a text's first word is one that a list of items begins with.
pub fn begins_with_items(text: &[u8]) -> bool {
    let mut words = lines(text).map(|mut reader| reader.peek());
    let first = words.find(|word| !word.is_empty()).unwrap_or_default();
    first == START || WORDS.iter().any(|word| word.as_bytes() == first)
}

/// A list, and how far it is read.
#[derive(Default)]
struct Reading {
    list: ItemList,
    has_begun: bool,
    has_ended: bool,
    /// The first item that the list has no place for.
    one_too_many: Option<Place>,
}

impl Reader<'_> {
    /// Reads a line of a list: its start, or items, or nothing but blanks and a
    /// comment.
    fn list_line(&mut self, reading: &mut Reading) -> Result<(), Mistake> {
        while !self.is_at_end() {
            let has_begun = mem::replace(&mut reading.has_begun, true);
            // told once: what follows may have mistakes of its own
            if mem::take(&mut reading.has_ended) {
                return Err(self.mistake("nothing behind end".to_string()));
            }
            let start = self.place();
            if !has_begun && self.peek() == START {
                self.take(START.len());
                reading.list.start = self.list_start(start)?;
                return self.end();
            }
            match self.list_word(has_begun)? {
                "end" => reading.has_ended = true,
                word => self.items(word, start, &AROUND, |item, place| {
                    if !reading.list.put(item, place) {
                        reading.one_too_many.get_or_insert(place);
                    }
                })?,
            }
        }
        Ok(())
    }

    fn list_word(&mut self, has_begun: bool) -> Result<&'static str, Mistake> {
        let help = match self.peek() {
            b"illegal" | b"rest" => " (illegal and rest are no items of a writer)",
            START => " (start stands first)",
            _ if !has_begun => " (start may stand first)",
            _ => "",
        };
        self.one_word(&WORDS, help)
    }

    /// Reads the page and the offset of the start whose word stands at `start`.
    fn list_start(&mut self, start: usize) -> Result<Start, Mistake> {
        let page = self.byte("a start page")?;
        let offset = self.number("a start offset", u16::MAX)?;
        Ok(Start {
            page,
            offset,
            place: self.place_since(start),
        })
    }
}

#[cfg(test)]
mod tests {
    use super::*;

    /// The program's input.
    fn input(text: &str) -> Vec<u8> {
        item_list(text.as_bytes()).unwrap().input()
    }

    #[track_caller]
    fn mistakes(text: &str, expected: &[&str]) {
        let mistakes = item_list(text.as_bytes()).unwrap_err();
        let said: Vec<String> = mistakes.iter().map(Mistake::to_string).collect();
        assert_eq!(said, expected);
    }

    #[test]
    fn one_a_line_or_several() {
        let plain = input("start 1 512\nbytes 3e01cd word 1234 page 3 restore move ffff\n");
        for text in [
            "start 1 512\nbytes 3e\nbytes 01\nbytes cd\nword 1234\npage 3\nrestore\nmove ffff\nend",
            "\u{feff}# a start\r\n\r\n\tstart 0x1 0x0200 # in hex\r\nbytes 3E 01\r\n\
             bytes \"\\xcd\" word 1234 # so\r\npage 0x3 restore\r\nmove FFFF end # last\r\n\r\n",
        ] {
            assert_eq!(input(text), plain, "{text}");
        }
    }

    #[test]
    fn no_items() {
        for text in ["", "end", "start 0 0", "# nothing\n\n", "bytes \"\"\nend\n"] {
            assert_eq!(input(text), [0, 0, 0], "{text}");
        }
    }

    #[test]
    fn what_the_three_bytes_hold() {
        assert_eq!(input("start 255 65535"), [255, 255, 255]);
        assert_eq!(input("page 65535"), [0, 0, 0, 2, 255, 255]);
        mistakes(
            "start 256 0\npage 65536\nword 123\nmove -1",
            &[
                "1:7: expected a start page 0 to 255, found \"256\"",
                "2:6: expected a page 0 to 65535, found \"65536\"",
                "3:6: expected a word as four hex digits, found \"123\"",
                "4:6: expected a move as four hex digits (-1 is ffff), found \"-1\"",
            ],
        );
        mistakes(
            "start 0 65536",
            &["1:9: expected a start offset 0 to 65535, found \"65536\""],
        );
    }

    #[test]
    fn words_that_are_no_items() {
        mistakes(
            "# a list\nbyte 01\nbyte 01\nbytes 01 byte",
            &[
                "2:1: expected bytes, word, page, restore, move or end (start may stand first), \
                 found \"byte\"",
                "3:1: expected bytes, word, page, restore, move or end, found \"byte\"",
                "4:10: expected pairs of hex digits, bytes, word, page, restore, move, end or \
                 the end of the line, found \"byte\"",
            ],
        );
        mistakes(
            "restore illegal\nbytes 01 rest 00",
            &[
                "1:9: expected bytes, word, page, restore, move or end \
                 (illegal and rest are no items of a writer), found \"illegal\"",
                "2:10: expected bytes, word, page, restore, move or end \
                 (illegal and rest are no items of a writer), found \"rest\"",
            ],
        );
    }

    #[test]
    fn a_start_stands_first_on_a_line_of_its_own() {
        mistakes(
            "start 0 0 word 1234\nstart 0 0\nbytes 01 start 0 0",
            &[
                "1:11: expected the end of the line, found \"word\"",
                "2:1: expected bytes, word, page, restore, move or end (start stands first), \
                 found \"start\"",
                "3:10: expected pairs of hex digits, bytes, word, page, restore, move, end or \
                 the end of the line, found \"start\"",
            ],
        );
    }

    #[test]
    fn nothing_stands_behind_the_end() {
        mistakes(
            "end end",
            &["1:5: expected nothing behind end, found \"end\""],
        );
        mistakes(
            "restore\nend\n\nword 1234\nword 1\nend",
            &[
                "4:1: expected nothing behind end, found \"word\"",
                "5:6: expected a word as four hex digits, found \"1\"",
            ],
        );
    }

    #[test]
    fn one_item_too_many() {
        let most = "restore\n".repeat(MOST_ITEMS - 2) + "bytes 0102";
        assert_eq!(input(&most).len(), 3 + 3 * MOST_ITEMS);
        mistakes(
            &(most.clone() + "0304\nend"),
            &["104856:11: expected at most 104857 items, found one more"],
        );
        mistakes(
            &(most + "\npage 1 page 1"),
            &["104857:1: expected at most 104857 items, found one more"],
        );
    }

    #[test]
    fn the_first_word_tells_a_list() {
        for text in ["end", "\n# so\n  bytes 01", "\u{feff}start 0 0", "word"] {
            assert!(begins_with_items(text.as_bytes()), "{text}");
        }
        for text in ["", "# end", "ending", "illegal", "\u{82}F\u{98}"] {
            assert!(!begins_with_items(text.as_bytes()), "{text}");
        }
    }
}
