//! Lists of items as bytes, in the form of docs/STREAM.md, and the items of a
//! module as a list.

use crate::items::{Item, Items, Next};

/// The items of a list of three bytes each: a tag (0 byte, 1 word, 2 set page, 3
/// restore, 4 move), and a value, low byte first. None where an item is cut or
/// has another tag, a byte is above 255 or a restore has a value other than 0:
/// that is no list of items.
pub fn list_of(bytes: &[u8]) -> Option<Vec<Item>> {
    bytes.chunks(3).map(item_of).collect()
}

fn item_of(bytes: &[u8]) -> Option<Item> {
    let &[tag, low, high] = bytes else {
        return None;
    };
    let value = u16::from_le_bytes([low, high]);
    match (tag, value) {
        (0, 0..=255) => Some(Item::Byte(low)),
        (1, word) => Some(Item::Word(word)),
        (2, page) => Some(Item::SetPage(page)),
        (3, 0) => Some(Item::Restore),
        (4, bits) => Some(Item::Move(bits)),
        _ => None,
    }
}

/// The items of the module that a stream begins with, and how many bytes it has;
/// none for "an illegal item, input that runs out or bad padding".
pub fn read_module(stream: &[u8]) -> Option<(Vec<Item>, usize)> {
    let (mut items, mut list) = (Items::of(stream), Vec::new());
    while let Next::Item(item) = items.next()? {
        list.push(item);
    }
    Some((list, stream.len() - items.untaken()))
}
