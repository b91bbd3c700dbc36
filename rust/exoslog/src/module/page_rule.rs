//! The loader's page rule over a list of items: exoslog's own reading of orders
//! 3 and 9.

use super::list::{ItemList, Start};
use crate::mistakes::Place;
use exos_modules::{Item, What};

/// "A page (0 to 3)."
pub(crate) const LAST_PAGE: u16 = 3;

/// "An offset, 0 to 16,384 (past the end)."
const PAST_THE_END: u16 = 16_384;

/// What the page rule refuses, where it stands and why.
#[derive(Clone, Debug, PartialEq, Eq)]
pub struct PageFault {
    /// Where it stands.
    pub place: Place,
    /// Which item it is, from 1, and why it is refused.
    pub why: String,
}

/// What is refused first, if anything: the start goes before all items.
pub(super) fn fault(list: &ItemList) -> Option<PageFault> {
    let place = list.start.place;
    if let Some(why) = start_fault(&list.start) {
        return Some(PageFault { place, why });
    }
    let mut offset = list.start.offset;
    for (number, placed) in (1..).zip(&list.items) {
        match behind(placed.item, offset) {
            Ok(next) => offset = next,
            Err(why) => {
                let (place, why) = (placed.place, format!("item {number}: {why}"));
                return Some(PageFault { place, why });
            }
        }
    }
    None
}

/// "A start outside kind 30's range."
fn start_fault(start: &Start) -> Option<String> {
    let Start { page, offset, .. } = start;
    if u16::from(*page) > LAST_PAGE {
        return Some(format!("start page {page} is above {LAST_PAGE}"));
    }
    let is_past = *offset > PAST_THE_END;
    is_past.then(|| format!("start offset {offset} is above {PAST_THE_END}"))
}

/// The counter's offset behind an item, or why the item is refused.
fn behind(item: Item, offset: u16) -> Result<u16, String> {
    let Item { what, value } = item;
    match what {
        What::Byte => behind_store(what, offset, 1),
        What::Word => behind_store(what, offset, 2),
        What::Move => behind_move(value, offset),
        What::SetPage if value > LAST_PAGE => Err(format!("page {value} is above {LAST_PAGE}")),
        _ => Ok(offset),
    }
}

/// "PAGE if any byte of a store falls at 16,384 or above."
fn behind_store(what: What, offset: u16, length: u16) -> Result<u16, String> {
    let end = offset + length;
    if end <= PAST_THE_END {
        return Ok(end);
    }
    let (reached, last) = (end - 1, PAST_THE_END - 1);
    Err(format!(
        "{what} at offset {offset} stores up to offset {reached}, and a page ends with {last}"
    ))
}

/// "A move adds 16 bits likewise and must land in the same page."
fn behind_move(value: u16, offset: u16) -> Result<u16, String> {
    let landing = offset.wrapping_add(value);
    if landing < PAST_THE_END {
        return Ok(landing);
    }
    let last = PAST_THE_END - 1;
    Err(format!(
        "move {value:04x} from offset {offset} lands at {landing}, and a page ends with {last}"
    ))
}

#[cfg(test)]
mod tests {
    use super::*;
    use crate::item_list;

    fn why(text: &str) -> Option<String> {
        let fault = item_list(text.as_bytes()).unwrap().page_fault();
        fault.map(|PageFault { place, why }| format!("{}:{}: {why}", place.line, place.column))
    }

    #[track_caller]
    fn refuses(text: &str, said: &str) {
        assert_eq!(why(text).as_deref(), Some(said));
    }

    #[test]
    fn what_the_page_holds() {
        for text in [
            "",
            "start 3 16384",
            "start 3 16384\nrestore page 3",
            "start 0 16383\nbytes 01",
            "start 0 16382\nword ffff restore",
            "move 3fff bytes 01",
            "start 0 1\nmove ffff",
            "start 0 16384\nmove c000 word 0000",
            "start 0 16384\nmove ffff bytes 01",
        ] {
            assert_eq!(why(text), None, "{text}");
        }
    }

    #[test]
    fn starts_out_of_range() {
        refuses("start 4 0", "1:1: start page 4 is above 3");
        refuses("\n start 255 65535", "2:2: start page 255 is above 3");
        refuses("start 0 16385", "1:1: start offset 16385 is above 16384");
    }

    #[test]
    fn pages_above_3() {
        for page in [4, 256, 65_535] {
            refuses(
                &format!("page 3 restore\npage {page}"),
                &format!("2:1: item 3: page {page} is above 3"),
            );
        }
    }

    #[test]
    fn stores_outside_the_page() {
        refuses(
            "start 0 16384\nbytes 01",
            "2:7: item 1: a byte at offset 16384 stores up to offset 16384, and a page ends with 16383",
        );
        refuses(
            "start 0 16382\nbytes 010203 word 0000",
            "2:11: item 3: a byte at offset 16384 stores up to offset 16384, and a page ends with 16383",
        );
        refuses(
            "start 0 16382\nbytes \"a\\x62c\"",
            "2:13: item 3: a byte at offset 16384 stores up to offset 16384, and a page ends with 16383",
        );
        refuses(
            "start 0 16383\nword 0000",
            "2:1: item 1: a word at offset 16383 stores up to offset 16384, and a page ends with 16383",
        );
    }

    #[test]
    fn moves_outside_the_page() {
        refuses(
            "move 4000",
            "1:1: item 1: move 4000 from offset 0 lands at 16384, and a page ends with 16383",
        );
        refuses(
            "word 0000 move fffd",
            "1:11: item 2: move fffd from offset 2 lands at 65535, and a page ends with 16383",
        );
        refuses(
            "start 0 16384\nmove 0000",
            "2:1: item 1: move 0000 from offset 16384 lands at 16384, and a page ends with 16383",
        );
    }
}
