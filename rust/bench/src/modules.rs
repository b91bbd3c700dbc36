//! A log of modules to load.

use crate::{Log, Numbers};
use exos_modules::{byte, stream, word, Item, What, END, RESTORE};

/// A log of so many modules, each of so many bytes, all loaded into the same segment of the user's.
pub fn modules(count: usize, bytes: usize) -> Log {
    let mut numbers = Numbers(7);
    let mut log = Log::started(16_128, 8);
    log.record(24, &[0]);
    for _ in 0..count {
        let start = [249, 1, 0, 0];
        log.record(30, &[&start, &module(&mut numbers, bytes)[..]].concat());
    }
    log
}

/// A module of so many bytes: an item in three is a word, the others are bytes.
fn module(numbers: &mut Numbers, bytes: usize) -> Vec<u8> {
    let mut left = 8 * bytes - What::End.length();
    let mut items = Vec::new();
    while left >= What::Word.length() {
        let item = match numbers.below(3) {
            0 => word(numbers.word(65_536)),
            _ => byte(numbers.byte(256)),
        };
        left -= item.what.length();
        items.push(item);
    }
    fill(&mut items, left);
    items.push(END);
    stream(&items)
}

/// Fills the bits that are left, but for less than a restore.
fn fill(items: &mut Vec<Item>, mut left: usize) {
    for filler in [byte(0), RESTORE] {
        while left >= filler.what.length() {
            left -= filler.what.length();
            items.push(filler);
        }
    }
}
