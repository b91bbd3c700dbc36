//! Lists of items in three bytes each, as order 9's writer is given them.

use crate::{Item, What};

/// What the items of each tag do.
const TAGS: [What; 5] = [
    What::Byte,
    What::Word,
    What::SetPage,
    What::Restore,
    What::Move,
];

/// The bytes of an item: its tag, and its value with the low byte first. None for
/// an end item and an illegal one, which no list has.
fn bytes_of(item: &Item) -> Option<[u8; 3]> {
    let tag = TAGS.iter().position(|&what| what == item.what)?;
    let [low, high] = item.value.to_le_bytes();
    Some([tag as u8, low, high])
}

/// The list of some items, up to the one that breaks off the reading.
pub fn list(items: &[Item]) -> Vec<u8> {
    let bytes: Vec<[u8; 3]> = items.iter().map_while(bytes_of).collect();
    bytes.concat()
}

/// The items of a list; none where the bytes are no list of items.
pub fn of_list(bytes: &[u8]) -> Option<Vec<Item>> {
    let items = bytes.chunks_exact(3);
    if !items.remainder().is_empty() {
        return None;
    }
    let item = |bytes: &[u8]| {
        let value = u16::from_le_bytes([bytes[1], bytes[2]]);
        let what = *TAGS.get(usize::from(bytes[0]))?;
        let most = match what {
            What::Byte => 255,
            What::Restore => 0,
            _ => u16::MAX,
        };
        (value <= most).then_some(Item { what, value })
    };
    items.map(item).collect()
}

#[cfg(test)]
mod tests {
    use super::*;
    use crate::{byte, move_by, set_page, word, END, ILLEGAL, RESTORE};

    #[test]
    fn a_list_of_each_item_and_back() {
        let items = [
            byte(0xFF),
            word(0x1234),
            set_page(4),
            RESTORE,
            move_by(0xFFFE),
        ];
        let bytes = [0, 0xFF, 0, 1, 0x34, 0x12, 2, 4, 0, 3, 0, 0, 4, 0xFE, 0xFF];
        assert_eq!(list(&items), bytes);
        assert_eq!(of_list(&bytes), Some(items.to_vec()));
        assert_eq!(of_list(&[]), Some(vec![]));
    }

    #[test]
    fn a_list_ends_before_what_breaks_off_the_reading() {
        assert_eq!(list(&[byte(1), END, byte(2)]), [0, 1, 0]);
        assert_eq!(list(&[ILLEGAL, byte(2)]), []);
    }

    #[test]
    fn bytes_that_are_no_list() {
        let bytes: [&[u8]; 6] = [
            &[0],
            &[0, 0, 0, 3, 0],
            &[5, 0, 0],
            &[255, 0, 0],
            &[0, 0, 1],
            &[3, 1, 0],
        ];
        for bytes in bytes {
            assert_eq!(of_list(bytes), None, "{bytes:?}");
        }
    }
}
