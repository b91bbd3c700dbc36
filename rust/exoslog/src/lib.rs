//! Logs of EXOS calls: in words, as pictures of the RAM, and their listings
//! compared.
//!
//! A log is event records: "length in 2 bytes counting kind and body (2 to
//! 4,096), kind in 2 bytes, body". A maker's log has a reply behind each, and
//! [`audit_log`] makes one of a log and a listing. [`decode`] gives any bytes in
//! words, one record a line, and [`encode`] gives exactly these bytes back.
//! [`item_list`] reads the items of a module in words, for the proved writer, and
//! [`module_words`] shows a module's. Sentences in quotation marks are those of
//! the definition (document 01) and of the orders (document 02).

mod answers;
mod audit_log;
mod decode;
mod diff;
mod grammar;
mod listing;
mod log;
mod map;
mod mistakes;
mod module;
mod parse;
mod records;
mod replay;
mod reply;
mod svg;
mod terminal;
mod words;

pub use answers::{answer, ANSWERS};
pub use audit_log::{audit_log, Mismatch};
pub use decode::{decode, decode_reply};
pub use diff::diff;
pub use exos_kernel::hex;
pub use grammar::{form_of, Field, Form, Misfit, FORMS};
pub use listing::Listing;
pub use log::{Asked, Cut, Log, NoRecord};
pub use map::{map, At, Boundary, Class, LineRecord, Map, Ram, Region, Segment, What};
pub use mistakes::{Mistake, Place};
pub use module::{items_words, module_words, ItemList, NoModule, PageFault, MOST_ITEMS};
pub use parse::{begins_with_items, encode, item_list};
pub use records::{records, Record, Records, LONGEST};
pub use replay::answer_to;
pub use reply::{ReplyRecord, MOST_BYTES, REPLY};
pub use svg::svg;
pub use terminal::terminal;
pub use words::{counted, quoted, words};

/// Whether a log is in words: it has no control byte but tab, newline and
/// carriage return. A record of a known kind has one, since the high byte of
/// its kind is 0 to 2.
pub fn is_in_words(log: &[u8]) -> bool {
    !log.iter()
        .any(|byte| byte.is_ascii_control() && !b"\t\n\r".contains(byte))
}

/// A text without the byte order mark that some editors put before it.
pub(crate) fn without_mark(text: &[u8]) -> &[u8] {
    text.strip_prefix("\u{feff}".as_bytes()).unwrap_or(text)
}

#[cfg(test)]
mod tests {
    use super::*;

    #[test]
    fn words_and_records_are_told_apart() {
        assert!(is_in_words(b"# caf\xc3\xa9\r\n\tclose 5\n"));
        for kind in FORMS.iter().map(|form| form.kind).chain([REPLY]) {
            let [low, high] = kind.to_le_bytes();
            assert!(!is_in_words(&[0x20, 0x20, low, high]));
        }
    }
}
