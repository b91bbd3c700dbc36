//! What the writer is asked, in words: the start, and items as `exoslog` has them.

use crate::protocol::Writing;
use exos_modules::of_list;
use exoslog::{hex, items_words};

/// A record for the writer in words.
pub fn writing_words(record: &[u8]) -> String {
    let Some(Writing { page, offset, list }) = Writing::of(record) else {
        return format!("write module: {} is no whole start", hex(record));
    };
    let Some(items) = of_list(list) else {
        return format!(
            "write module {page} {offset}: {} is no list of items",
            hex(list)
        );
    };
    let start = vec!["write module".to_string(), format!("{page} {offset}")];
    [start, items_words(&items)].concat().join(" ")
}

#[cfg(test)]
mod tests {
    use super::*;

    fn words(list: &[u8]) -> String {
        writing_words(&[&[1, 0, 2], list].concat())
    }

    #[test]
    fn each_item_in_words() {
        assert_eq!(words(&[]), "write module 1 512");
        let list = [
            0, 1, 0, 0, 0xAB, 0, 1, 0x34, 0x12, 2, 0, 1, 3, 0, 0, 4, 1, 0, 0, 2, 0,
        ];
        assert_eq!(
            words(&list),
            "write module 1 512 bytes 01ab word 1234 page 256 restore move 0001 bytes 02"
        );
    }

    #[test]
    fn what_is_no_list_in_words() {
        assert_eq!(
            words(&[5, 0, 0]),
            "write module 1 512: 050000 is no list of items"
        );
        assert_eq!(
            writing_words(&[1, 2]),
            "write module: 0102 is no whole start"
        );
    }
}
