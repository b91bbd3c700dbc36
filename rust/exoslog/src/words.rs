//! Records in words.

use crate::grammar::{form_of, Field, Form, Misfit};
use crate::module::stream_words;
use crate::records::{Record, LONGEST};
use crate::reply::{reply_words, REPLY};
use exos_kernel::hex;

/// A record in words. What is ill-formed has a comment that says why.
pub fn words(record: Record) -> String {
    match record {
        Record::Whole { kind: REPLY, body } => reply_words(body),
        Record::Whole { kind, body } => whole(kind, body),
        Record::Bad(bytes) => bad(bytes),
    }
}

fn whole(kind: u16, body: &[u8]) -> String {
    let Some(form) = form_of(kind) else {
        return format!("kind {kind} {} # kind unknown", data(body));
    };
    let why = match form.parts(body) {
        Ok(parts) => return call(form, &parts),
        Err(Misfit::Short) => "body short of its fixed fields",
        Err(Misfit::Long) => "body longer than its fields",
    };
    format!("kind {kind} {} # {}: {why}", data(body), form.words)
}

/// A body that fits its form.
fn call(form: &Form, parts: &[(Field, &[u8])]) -> String {
    let mut text = form.words.to_string();
    for (field, bytes) in parts {
        for word in field_words(*field, bytes) {
            text.push(' ');
            text.push_str(&word);
        }
    }
    text
}

/// A field's bytes in words; a list has a word for each of its numbers, a
/// stream for each of its items.
fn field_words(field: Field, bytes: &[u8]) -> Vec<String> {
    match (field, bytes) {
        (Field::Word(_), &[low, high]) => vec![u16::from_le_bytes([low, high]).to_string()],
        (Field::Flags, &[flags]) => vec![flag_bits(flags)],
        (Field::Caller, [0]) => vec!["user".to_string()],
        (Field::Caller, [1]) => vec!["device".to_string()],
        (Field::Name, name) => vec![quoted(name)],
        (Field::Data, bytes) => vec![data(bytes)],
        (Field::Stream, stream) => stream_words(stream),
        (_, numbers) => numbers.iter().map(u8::to_string).collect(),
    }
}

/// Flags by their bits: "bit 4", "bit 5", "bit 6", and any other.
fn flag_bits(flags: u8) -> String {
    if flags == 0 {
        return "0".to_string();
    }
    let set = (0..8).filter(|bit| flags >> bit & 1 == 1);
    set.fold("bits".to_string(), |text, bit| format!("{text} {bit}"))
}

/// Data in lower-case hex, or an empty string.
pub(crate) fn data(bytes: &[u8]) -> String {
    if bytes.is_empty() {
        return "\"\"".to_string();
    }
    hex(bytes)
}

/// A count of things: `1 byte`, `2 bytes`.
pub fn counted(count: usize, thing: &str) -> String {
    let s = if count == 1 { "" } else { "s" };
    format!("{count} {thing}{s}")
}

/// A text of at most so many characters; a longer one ends with dots.
pub(crate) fn cut(text: &str, most: usize) -> String {
    if text.chars().count() <= most {
        return text.to_string();
    }
    let start: String = text.chars().take(most - 3).collect();
    format!("{start}...")
}

/// A string in double quotes: printable bytes as they are, `\\` and `\"`, any
/// other byte as `\x` and two digits.
pub fn quoted(bytes: &[u8]) -> String {
    let mut text = "\"".to_string();
    for &byte in bytes {
        match byte {
            b'"' | b'\\' => text.extend(['\\', char::from(byte)]),
            b' '..=b'~' => text.push(char::from(byte)),
            _ => text.push_str(&format!("\\x{byte:02x}")),
        }
    }
    text.push('"');
    text
}

/// "A bad length or cut record": the length field and whatever follows.
fn bad(bytes: &[u8]) -> String {
    let Some((field, rest)) = bytes.split_first_chunk::<2>() else {
        return format!("raw {} # cut in its length", hex(bytes));
    };
    let length = u16::from_le_bytes(*field);
    let why = if (2..=LONGEST).contains(&usize::from(length)) {
        format!("cut: length {length}, bytes {}", rest.len())
    } else {
        format!("length {length}, not 2 to {LONGEST}")
    };
    let blank = if rest.is_empty() { "" } else { " " };
    format!("raw {}{blank}{} # {why}", hex(field), hex(rest))
}

#[cfg(test)]
mod tests {
    use super::*;

    fn of(kind: u16, body: &[u8]) -> String {
        words(Record::Whole { kind, body })
    }

    #[test]
    fn every_kind_in_its_words() {
        assert_eq!(
            of(256, &[0x42, 0x2B, 252, 253, 255]),
            "start 11074 252 253 255"
        );
        assert_eq!(of(256, &[0x42, 0x2B]), "start 11074");
        assert_eq!(of(0, &[0x50]), "reset bits 4 6");
        assert_eq!(of(1, b"\x05\x00\x64\x00VIDEO:"), "open 5 0 100 \"VIDEO:\"");
        assert_eq!(of(3, &[5]), "close 5");
        assert_eq!(of(6, &[5, 98, 0, 2, 1]), "read 5 98 258");
        assert_eq!(of(8, &[5, 98, 0, 0xAA, 0x55]), "write 5 98 aa55");
        assert_eq!(of(19, b"\x07net"), "default 7 \"net\"");
        assert_eq!(of(20, &[]), "status");
        assert_eq!(of(21, b"\x00\x01DISK"), "link 256 \"DISK\"");
        assert_eq!(of(22, &[]), "boundary");
        assert_eq!(of(23, &[0x32, 0x2B]), "set user boundary 11058");
        assert_eq!(of(24, &[0]), "allocate user");
        assert_eq!(of(24, &[1]), "allocate device");
        assert_eq!(of(24, &[2]), "allocate 2");
        assert_eq!(of(25, &[1, 253]), "free device 253");
        assert_eq!(
            of(30, &[253, 3, 0, 1, 0x00, 0xE0]),
            "load module 253 3 256 bytes 01 end"
        );
        assert_eq!(of(257, &[252, 0, 1, 0x5A]), "user store 252 256 5a");
        assert_eq!(of(258, &[252, 0, 1, 1, 0]), "user load 252 256 1");
    }

    #[test]
    fn flags_by_their_bits() {
        assert_eq!(flag_bits(0), "0");
        assert_eq!(flag_bits(1), "bits 0");
        assert_eq!(flag_bits(0xFF), "bits 0 1 2 3 4 5 6 7");
    }

    #[test]
    fn names_with_any_byte() {
        assert_eq!(quoted(b""), "\"\"");
        assert_eq!(
            quoted(b"a\"\\\n\x00\x7f\xff~ #"),
            "\"a\\\"\\\\\\x0a\\x00\\x7f\\xff~ #\""
        );
    }

    #[test]
    fn ill_formed_records_say_why() {
        assert_eq!(of(77, &[1, 2]), "kind 77 0102 # kind unknown");
        assert_eq!(of(77, &[]), "kind 77 \"\" # kind unknown");
        assert_eq!(
            of(3, &[]),
            "kind 3 \"\" # close: body short of its fixed fields"
        );
        assert_eq!(
            of(20, &[0]),
            "kind 20 00 # status: body longer than its fields"
        );
        assert_eq!(
            of(30, &[253, 3, 0]),
            "kind 30 fd0300 # load module: body short of its fixed fields"
        );
        assert_eq!(bad(&[1]), "raw 01 # cut in its length");
        assert_eq!(bad(&[1, 7]), "raw 0107 # cut: length 1793, bytes 0");
        assert_eq!(bad(&[4, 0, 9]), "raw 0400 09 # cut: length 4, bytes 1");
        assert_eq!(
            bad(&[1, 0, 9, 8]),
            "raw 0100 0908 # length 1, not 2 to 4096"
        );
        assert_eq!(bad(&[1, 16]), "raw 0110 # length 4097, not 2 to 4096");
    }
}
