//! The names of section 11.1: "[[device] [["-"] unit] ":"] [file]".

use crate::tables::NAME;

/// "At most 255 bytes."
const LONGEST_STRING: usize = 255;

/// A name of 1 to 28 capitals, or the empty default.
#[derive(Clone, Copy)]
pub(crate) struct Name {
    pub(crate) bytes: [u8; NAME],
    pub(crate) length: u8,
}

impl Name {
    /// "1 to 28 bytes, all letters", upper-cased.
    pub(crate) fn upper_cased(letters: &[u8]) -> Option<Name> {
        let fits = (1..=NAME).contains(&letters.len());
        (fits && letters.iter().all(u8::is_ascii_alphabetic)).then(|| {
            let mut bytes = [0; NAME];
            bytes[..letters.len()].copy_from_slice(letters);
            bytes.make_ascii_uppercase();
            Name {
                bytes,
                length: letters.len() as u8,
            }
        })
    }

    /// "Link takes capitals only."
    pub(crate) fn of_capitals(letters: &[u8]) -> Option<Name> {
        Name::upper_cased(letters).filter(|_| letters.iter().all(u8::is_ascii_uppercase))
    }
}

/// The parts of a string that say which device and unit is meant.
pub(crate) struct Parts {
    pub(crate) device: Option<Name>,
    pub(crate) unit: Option<u8>,
}

/// Takes the string apart; none if it is against the rules.
pub(crate) fn parse(string: &[u8]) -> Option<Parts> {
    let (front, file) = split_at_colon(string);
    (string.len() <= LONGEST_STRING && is_file(file))
        .then_some(front)
        .and_then(parse_front)
}

/// "With no colon the whole string is a file name."
fn split_at_colon(string: &[u8]) -> (&[u8], &[u8]) {
    match string.iter().position(|&byte| byte == b':') {
        Some(colon) => (&string[..colon], &string[colon + 1..]),
        None => (&[], string),
    }
}

/// "File: 0 to 28 bytes 21h to 7Eh, no colon."
fn is_file(file: &[u8]) -> bool {
    file.len() <= NAME
        && file
            .iter()
            .all(|byte| matches!(byte, 0x21..=0x7E) && *byte != b':')
}

/// What stands before the colon: "[device] [["-"] unit]".
fn parse_front(front: &[u8]) -> Option<Parts> {
    let letters = front
        .iter()
        .take_while(|byte| byte.is_ascii_alphabetic())
        .count();
    let (device, rest) = front.split_at(letters);
    Some(Parts {
        device: optional(device, Name::upper_cased)?,
        unit: optional(rest, parse_unit)?,
    })
}

/// An absent part is allowed; one that is there keeps its rule.
fn optional<T>(part: &[u8], rule: fn(&[u8]) -> Option<T>) -> Option<Option<T>> {
    if part.is_empty() {
        Some(None)
    } else {
        rule(part).map(Some)
    }
}

/// "Unit: one or more decimal digits, value 0 to 255, leading zeros allowed.
/// A "-" needs a unit after it."
fn parse_unit(part: &[u8]) -> Option<u8> {
    let digits = part.strip_prefix(b"-").unwrap_or(part);
    let all_digits = !digits.is_empty() && digits.iter().all(u8::is_ascii_digit);
    all_digits
        .then_some(digits)?
        .iter()
        .try_fold(0u8, add_digit)
}

fn add_digit(value: u8, digit: &u8) -> Option<u8> {
    value.checked_mul(10)?.checked_add(digit - b'0')
}
