//! Streams that end otherwise than by an end item and zeros.

use crate::{stream, Item, Module, What, END, RESTORE};

/// Items and the first bits of one more, which restores before it let end a
/// byte.
pub fn cut(items: &[Item], last: Item, bits: usize) -> Vec<u8> {
    let mut items = aligned(items, bits);
    let length = (length(&items) + bits) / 8;
    items.push(last);
    let mut stream = stream(&items);
    stream.truncate(length);
    stream
}

/// Items, the end item and some padding, which restores before let end a byte.
pub fn padded(items: &[Item], padding: &[bool]) -> Vec<u8> {
    let mut items = aligned(items, What::End.length() + padding.len());
    items.push(END);
    let rest = padding.to_vec();
    Module { items, rest }.stream()
}

/// The items, and as many restores as let so many bits more end a byte.
fn aligned(items: &[Item], bits: usize) -> Vec<Item> {
    let mut items = items.to_vec();
    while (length(&items) + bits) % 8 != 0 {
        items.push(RESTORE);
    }
    items
}

/// How many bits the items have.
pub(crate) fn length(items: &[Item]) -> usize {
    items.iter().map(|item| item.what.length()).sum()
}
