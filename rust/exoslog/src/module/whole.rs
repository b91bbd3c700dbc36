//! A whole module in words, in the form that a list of items has.

use super::list::MOST_ITEMS;
use super::{has_bad_padding, is_broken_off, items_words};
use crate::words::{counted, cut};
use exos_kernel::hex;
use exos_modules::{Item, Module, What, ILLEGAL};
use std::fmt::{self, Display, Formatter};

/// The bytes that are looked at: in so many there are more items than a list
/// has, or the end item.
const LOOKED_AT: usize = (MOST_ITEMS + 1) * LONGEST_ITEM / 8 + 1;

/// The bits of a move, the longest item.
const LONGEST_ITEM: usize = 20;

/// The most columns of a line with a comment.
const WIDTH: usize = 80;

/// Why bytes are no whole module.
#[derive(Clone, Debug, PartialEq, Eq)]
pub struct NoModule {
    /// At which bit, from 0.
    pub bit: usize,
    /// Which item is at fault, from 1, and why.
    pub why: String,
}

/// "Bits are read from bit 7 of the first byte."
impl Display for NoModule {
    fn fmt(&self, to: &mut Formatter<'_>) -> fmt::Result {
        let NoModule { bit, why } = self;
        write!(to, "byte {} (from 0), bit {}: {why}", bit / 8, 7 - bit % 8)
    }
}

/// A module in words, an item or a run of bytes a line; a comment tells of bytes
/// behind the end item.
pub fn module_words(bytes: &[u8]) -> Result<String, NoModule> {
    let module = Module::of(&bytes[..bytes.len().min(LOOKED_AT)]);
    if let Some(fault) = fault(&module) {
        return Err(fault);
    }
    let mut text = items_words(&module.items).join("\n");
    let behind = &bytes[module.length().div_ceil(8)..];
    if !behind.is_empty() {
        text.push_str(&comment(behind));
    }
    Ok(text + "\n")
}

fn comment(behind: &[u8]) -> String {
    let count = counted(behind.len(), "byte");
    // no more than a line can show
    let shown = hex(&behind[..behind.len().min(WIDTH)]);
    let comment = format!(" # {count} behind the end item: {shown}");
    cut(&comment, WIDTH - "end".len())
}

/// What is first at fault, if anything.
fn fault(module: &Module) -> Option<NoModule> {
    let items = &module.items;
    let (count, end) = (items.len(), module.length());
    let beyond = items.get(MOST_ITEMS);
    let (bit, why) = if beyond.is_some_and(|item| !item.what.is_last()) {
        let too_many = format!("item {} is one too many", MOST_ITEMS + 1);
        (length(&items[..MOST_ITEMS]), too_many)
    } else if items.last() == Some(&ILLEGAL) {
        let illegal = format!("item {count} is illegal: 111");
        (end - What::Illegal.length(), illegal)
    } else if !is_broken_off(module) {
        (end, runs_out(count + 1, module.rest.len()))
    } else if has_bad_padding(module) {
        let zeros = module.rest.iter().take_while(|bit| !**bit).count();
        let padding = format!("item {count}, the end item, has padding that is not zero");
        (end + zeros, padding)
    } else {
        return None;
    };
    Some(NoModule { bit, why })
}

/// "Input that runs out", so many bits into an item.
fn runs_out(item: usize, bits: usize) -> String {
    match bits {
        0 => format!("the input ends where item {item} is due, without an end item"),
        _ => format!(
            "the input ends within item {item}, {} into it",
            counted(bits, "bit")
        ),
    }
}

fn length(items: &[Item]) -> usize {
    items.iter().map(|item| item.what.length()).sum()
}

#[cfg(test)]
mod tests {
    use super::*;
    use exos_modules::{byte, cut, move_by, set_page, stream, word, END, RESTORE};

    fn no_module(bytes: &[u8]) -> String {
        module_words(bytes).unwrap_err().to_string()
    }

    #[test]
    fn an_item_or_a_run_a_line() {
        let items = [
            byte(0x3E),
            byte(1),
            word(0x1234),
            set_page(3),
            RESTORE,
            move_by(0xFFF3),
            byte(0xC9),
            END,
        ];
        assert_eq!(
            module_words(&stream(&items)).as_deref(),
            Ok("bytes 3e01\nword 1234\npage 3\nrestore\nmove fff3\nbytes c9\nend\n")
        );
        assert_eq!(module_words(&[0xC0]).as_deref(), Ok("end\n"));
    }

    #[test]
    fn bytes_behind_the_end_item() {
        assert_eq!(
            module_words(&[0xAE, 0xFF]).as_deref(),
            Ok("restore\nend # 1 byte behind the end item: ff\n")
        );
        let text = module_words(&[&[0xC0][..], &[0x5A; 1_000_000]].concat()).unwrap();
        assert!(text.starts_with("end # 1000000 bytes behind the end item: 5a5a"));
        assert!(text.len() == WIDTH + 1 && text.ends_with("...\n"), "{text}");
    }

    #[test]
    fn the_place_of_a_fault() {
        assert_eq!(
            no_module(&[0xE0, 0xC0]),
            "byte 0 (from 0), bit 7: item 1 is illegal: 111"
        );
        assert_eq!(
            no_module(&[0x00, 0xF0]),
            "byte 1 (from 0), bit 6: item 2 is illegal: 111"
        );
        assert_eq!(
            no_module(&[]),
            "byte 0 (from 0), bit 7: the input ends where item 1 is due, without an end item"
        );
        assert_eq!(
            no_module(&[0; 9]),
            "byte 9 (from 0), bit 7: the input ends where item 9 is due, without an end item"
        );
        assert_eq!(
            no_module(&cut(&[], word(0), 8)),
            "byte 0 (from 0), bit 7: the input ends within item 1, 8 bits into it"
        );
        assert_eq!(
            no_module(&[0xAC]),
            "byte 0 (from 0), bit 2: the input ends within item 2, 3 bits into it"
        );
        assert_eq!(
            no_module(&[0xC1]),
            "byte 0 (from 0), bit 0: item 1, the end item, has padding that is not zero"
        );
        assert_eq!(
            no_module(&[0x00, 0xEC, 0xFF]),
            "byte 1 (from 0), bit 3: item 2, the end item, has padding that is not zero"
        );
    }

    #[test]
    fn as_many_items_as_a_list_has() {
        for item in [RESTORE, move_by(0)] {
            let mut items = vec![item; MOST_ITEMS];
            items.push(END);
            let text = module_words(&stream(&items)).unwrap();
            assert_eq!(text.lines().count(), MOST_ITEMS + 1);
            items[MOST_ITEMS] = ILLEGAL;
            let illegal = no_module(&stream(&items));
            assert!(
                illegal.ends_with(": item 104858 is illegal: 111"),
                "{illegal}"
            );
            items.insert(0, item);
            let bit = MOST_ITEMS * item.what.length();
            let why = "item 104858 is one too many".to_string();
            assert_eq!(module_words(&stream(&items)), Err(NoModule { bit, why }));
        }
        assert_eq!(
            What::ALL.map(What::length).into_iter().max(),
            Some(LONGEST_ITEM)
        );
    }
}
