//! A list of items for the writer of modules (order 9), with its start.

use super::page_rule::{self, PageFault};
use crate::mistakes::Place;
use exos_modules::{stream, Item, Module, END};

/// The most items that the program takes: so many of the shortest, restores,
/// and the end item fill its buffer.
pub const MOST_ITEMS: usize = 104_857;

/// A start, and the items of a module before the end item.
#[derive(Clone, Debug, Default, PartialEq, Eq)]
pub struct ItemList {
    pub(crate) start: Start,
    pub(crate) items: Vec<PlacedItem>,
}

/// Where the counter begins.
#[derive(Clone, Debug, PartialEq, Eq)]
pub(crate) struct Start {
    pub(crate) page: u8,
    pub(crate) offset: u16,
    pub(crate) place: Place,
}

/// A list that has no line for it starts at page 0, offset 0.
impl Default for Start {
    fn default() -> Start {
        Start {
            page: 0,
            offset: 0,
            place: Place {
                line: 1,
                column: 1,
                width: 1,
            },
        }
    }
}

/// An item, and where it stands in the text.
#[derive(Clone, Debug, PartialEq, Eq)]
pub(crate) struct PlacedItem {
    pub(crate) item: Item,
    pub(crate) place: Place,
}

impl ItemList {
    /// Puts an item behind the others. Whether there was a place for it.
    pub(crate) fn put(&mut self, item: Item, place: Place) -> bool {
        let has_place = self.items.len() < MOST_ITEMS;
        if has_place {
            self.items.push(PlacedItem { item, place });
        }
        has_place
    }

    /// The program's input: the start page, the start offset in 2 bytes, and 3
    /// bytes an item, its tag and its value. Numbers are little-endian.
    pub fn input(&self) -> Vec<u8> {
        let items: Vec<Item> = self.items().collect();
        let mut input = vec![self.start.page];
        input.extend(self.start.offset.to_le_bytes());
        input.extend(exos_modules::list(&items));
        input
    }

    /// How many bytes the module has: the items' bits, the end item's, and
    /// "zero padding".
    pub fn module_length(&self) -> usize {
        let items = self.items().chain([END]);
        let bits: usize = items.map(|item| item.what.length()).sum();
        bits.div_ceil(8)
    }

    /// Whether bytes are the module of these items: "Reading back gives the same
    /// items."
    pub fn is_module(&self, bytes: &[u8]) -> bool {
        let module = Module::of(bytes);
        let items: Vec<Item> = self.items().chain([END]).collect();
        module.items == items && stream(&items) == bytes
    }

    /// What the page rule refuses first, if anything.
    pub fn page_fault(&self) -> Option<PageFault> {
        page_rule::fault(self)
    }

    fn items(&self) -> impl Iterator<Item = Item> + '_ {
        self.items.iter().map(|placed| placed.item)
    }
}

#[cfg(test)]
mod tests {
    use super::*;
    use crate::item_list;

    fn list(text: &str) -> ItemList {
        item_list(text.as_bytes()).unwrap()
    }

    #[test]
    fn the_programs_input() {
        assert_eq!(list("").input(), [0, 0, 0]);
        assert_eq!(
            list("start 3 0x4001\nbytes 0aff word 1234 page 3 page 65535 restore move fff3 end")
                .input(),
            [
                3, 0x01, 0x40, 0, 0x0A, 0, 0, 0xFF, 0, 1, 0x34, 0x12, 2, 3, 0, 2, 0xFF, 0xFF, 3, 0,
                0, 4, 0xF3, 0xFF
            ]
        );
    }

    #[test]
    fn the_module_of_the_items() {
        let modules: [(&str, &[u8]); 6] = [
            ("", &[0xC0]),
            ("bytes 01", &[0x00, 0xE0]),
            ("word 1234", &[0x82, 0x46, 0x98]),
            ("page 3", &[0xA7, 0x80]),
            ("restore", &[0xAE]),
            ("move 4000", &[0xB4, 0x00, 0x0C]),
        ];
        for (text, module) in modules {
            let list = list(text);
            assert_eq!(list.module_length(), module.len(), "{text}");
            for (other, bytes) in modules {
                assert_eq!(list.is_module(bytes), text == other, "{text} {other}");
            }
            assert!(!list.is_module(&[module, &[0]].concat()));
            assert!(!list.is_module(&module[1..]));
            let mut padded = module.to_vec();
            *padded.last_mut().unwrap() |= 1;
            assert!(!list.is_module(&padded), "{text}");
        }
        // what two bits hold of page 7
        assert!(!list("page 7").is_module(&[0xA7, 0x80]));
    }

    #[test]
    fn the_most_restores_fill_the_programs_buffer() {
        let list = list(&"restore\n".repeat(MOST_ITEMS));
        assert_eq!(list.module_length(), 65_536);
        assert_eq!(list.input().len(), 3 + 3 * MOST_ITEMS);
    }
}
