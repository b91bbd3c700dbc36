//! A maker's log, made of a log of events and the listing of a maker's board.

use crate::grammar::kind_words;
use crate::listing::{Line, Listing, NoAnswer};
use crate::records::{put_record, records, Record};
use crate::reply::{ReplyRecord, REPLY};
use crate::words::{counted, cut};
use std::cmp::Ordering;

/// Why a log and a listing make no maker's log.
#[derive(Clone, Debug, PartialEq, Eq)]
pub struct Mismatch {
    /// The line of the listing, from 1, which is the number of its record.
    pub line: usize,
    /// What is wrong there.
    pub why: String,
}

/// The log in which each event is followed by what its line of the listing says,
/// or every line that is none of such a log. What a line says is not judged.
pub fn audit_log(log: &[u8], listing: Listing) -> Result<Vec<u8>, Vec<Mismatch>> {
    let lines: Vec<Line> = listing.lines().take_while(Line::is_there).collect();
    let mut mismatches: Vec<Mismatch> = other_length(records(log).count(), lines.len())
        .into_iter()
        .collect();
    let mut made = Vec::new();
    for (line, (record, text)) in (1..).zip(records(log).zip(&lines)) {
        if let Err(why) = put_answered(&mut made, record, text) {
            mismatches.push(Mismatch { line, why });
        }
    }
    if mismatches.is_empty() {
        Ok(made)
    } else {
        Err(mismatches)
    }
}

/// The first line without a record, or record without a line.
fn other_length(records: usize, lines: usize) -> Option<Mismatch> {
    let line = records.min(lines) + 1;
    let found = match lines.cmp(&records) {
        Ordering::Equal => return None,
        Ordering::Less => format!("record {line} has no line"),
        Ordering::Greater => format!("line {line} has no record"),
    };
    let (records, lines) = (counted(records, "record"), counted(lines, "line"));
    let why = format!("{found}: the log has {records}, and the listing {lines}");
    Some(Mismatch { line, why })
}

/// Puts an event and its reply behind a log, or says why there is none.
fn put_answered(log: &mut Vec<u8>, event: Record, line: &Line) -> Result<(), String> {
    let Record::Whole { kind, body } = event else {
        return Err("the record is cut or has a bad length, and no reply follows such".to_string());
    };
    if kind == REPLY {
        return Err(format!(
            "the record is of kind {REPLY}, which a reply has and no event"
        ));
    }
    let reply = reply_body(kind, line)?;
    put_record(log, kind, body);
    put_record(log, REPLY, &reply);
    Ok(())
}

/// The body of the reply that a line is, to an event of a kind.
fn reply_body(kind: u16, line: &Line) -> Result<Vec<u8>, String> {
    let answer = match line.answer() {
        Some(Ok(answer)) => answer,
        Some(Err(NoAnswer::NoLine(why))) => return Err(format!("no line of a listing: {why}")),
        Some(Err(NoAnswer::Bad)) | None => return Err("bad: no reply can say this".to_string()),
    };
    if answer.kind() != kind.to_string() {
        let found = kind_words(&cut(answer.kind(), LONGEST_NUMBER));
        let record = kind_words(&kind.to_string());
        return Err(format!("kind {found}, and the record is {record}"));
    }
    let [_, number, a, b] = answer.values();
    let bytes = bytes_of(answer.bytes)?;
    let reply = ReplyRecord {
        answer: fits("answer", number, u8::MAX.into())? as u8,
        a: fits("a", a, u8::MAX.into())? as u8,
        b: fits("b", b, u16::MAX)?,
        bytes: &bytes,
    };
    match reply.ill_sized_for(kind) {
        Some(why) => Err(why),
        None => Ok(reply.body()),
    }
}

/// The most digits of a number that a message repeats.
const LONGEST_NUMBER: usize = 20;

/// A number that a field of a reply has room for.
fn fits(name: &str, value: &str, most: u16) -> Result<u16, String> {
    let number = value.parse().ok().filter(|&number| number <= most);
    number.ok_or_else(|| {
        let value = cut(value, LONGEST_NUMBER);
        format!("{name} is {value}, and a reply has room for 0 to {most}")
    })
}

/// The bytes of a fifth field.
fn bytes_of(hex: &str) -> Result<Vec<u8>, String> {
    let byte = |pair: &[u8]| match *pair {
        [high, low] => Some(digit(high)? << 4 | digit(low)?),
        _ => None,
    };
    let bytes: Option<Vec<u8>> = hex.as_bytes().chunks(2).map(byte).collect();
    bytes.ok_or_else(|| "the bytes are no pairs of hex digits".to_string())
}

fn digit(byte: u8) -> Option<u8> {
    let digit = char::from(byte).to_digit(16)?;
    u8::try_from(digit).ok()
}

#[cfg(test)]
mod tests {
    use super::*;
    use crate::{decode, encode};

    /// What is made of a log in words and a listing: the words of a maker's log,
    /// or the mismatches.
    fn made(log: &str, listing: &str) -> Result<String, Vec<String>> {
        let log = encode(log.as_bytes()).unwrap();
        let listing = Listing {
            name: "x",
            text: listing.as_bytes(),
        };
        let told = |mismatch: Mismatch| format!("{}: {}", mismatch.line, mismatch.why);
        match audit_log(&log, listing) {
            Ok(made) => Ok(decode(&made)),
            Err(mismatches) => Err(mismatches.into_iter().map(told).collect()),
        }
    }

    /// What is wrong with the line of one record.
    #[track_caller]
    fn refuses(record: &str, line: &str, why: &str) {
        assert_eq!(made(record, line), Err(vec![format!("1: {why}")]));
    }

    #[test]
    fn each_event_with_its_reply() {
        let log = "start 11074 252 255\nread 5 0 2\nstatus\nallocate user\nkind 77 \"\"\n";
        let listing =
            "256 0 2 11074\n6 0 0 2 aa55\n20 0 0 5 0001020304\n24 17 255 11074\n77 2 0 0\n";
        assert_eq!(
            made(log, listing).unwrap(),
            "start 11074 252 255\n  reply 0 2 11074 # 0 done\n\
             read 5 0 2\n  reply 0 0 2 aa55 # 0 done\n\
             status\n  reply 0 0 5 0001020304 # 0 done\n\
             allocate user\n  reply 17 255 11074 # 17 SHARED\n\
             kind 77 \"\" # kind unknown\n  reply 2 0 0 # 2 CALL\n"
        );
        assert_eq!(made("", ""), Ok(String::new()));
    }

    /// What a board answers wrongly is for the audit to judge.
    #[test]
    fn any_numbers_make_a_reply() {
        for (record, line, reply) in [
            (
                "close 5",
                "3 255 255 65535",
                "255 255 65535 # 255 (no such answer)",
            ),
            ("status", "20 0 9 3 010203", "0 9 3 010203 # 0 done"),
            ("read 5 0 2", "6 0 0 0", "0 0 0 # 0 done"),
            ("read 5 0 2", "6 13 0 5000", "13 0 5000 # 13 RANGE"),
            ("write 5 0 aa", "8 0 0 60000", "0 0 60000 # 0 done"),
            ("close 5", "\u{feff}003 03 00 0 \r\n", "3 0 0 # 3 CHANNEL"),
            ("read 5 0 2", "6 0 0 2 AA5f", "0 0 2 aa5f # 0 done"),
        ] {
            let expected = format!("{record}\n  reply {reply}\n");
            assert_eq!(made(record, line), Ok(expected));
        }
    }

    #[test]
    fn lines_and_records_in_another_number() {
        assert_eq!(
            made("status\nclose 5\n", "20 1 0 0\n"),
            Err(vec![
                "2: record 2 has no line: the log has 2 records, and the listing 1 line"
                    .to_string()
            ])
        );
        assert_eq!(
            made("status", "20 1 0 0\n\n3 0 0 0"),
            Err(vec![
                "2: line 2 has no record: the log has 1 record, and the listing 3 lines"
                    .to_string()
            ])
        );
    }

    #[test]
    fn lines_that_are_not_their_records() {
        refuses(
            "close 5",
            "22 0 0 0",
            "kind 22 boundary, and the record is 3 close",
        );
        refuses(
            "kind 77 00",
            "65536 2 0 0",
            "kind 65536 unknown, and the record is 77 unknown",
        );
        refuses("close 5", "bad", "bad: no reply can say this");
        let cut = "the record is cut or has a bad length, and no reply follows such";
        refuses("raw 0300 0300", "bad", cut);
        refuses("raw 0300 0300", "3 0 0 0", cut);
        refuses(
            "reply 0 0 0",
            "512 2 0 0",
            "the record is of kind 512, which a reply has and no event",
        );
    }

    #[test]
    fn lines_that_are_no_lines() {
        let fields = "no line of a listing: it has other than four or five fields";
        refuses("close 5", "3 0 0", fields);
        refuses("close 5", "\n", fields);
        refuses("close 5", "3 0 x 0", "no line of a listing: a is \"x\"");
        refuses(
            "read 5 0 2",
            "6 0 0 2 xyzw",
            "no line of a listing: the bytes are no hex",
        );
    }

    #[test]
    fn numbers_that_fit_no_field() {
        let room = |most: u16| format!("and a reply has room for 0 to {most}");
        refuses(
            "close 5",
            "3 256 0 0",
            &format!("answer is 256, {}", room(255)),
        );
        refuses("close 5", "3 0 300 0", &format!("a is 300, {}", room(255)));
        refuses(
            "close 5",
            "3 0 0 65536",
            &format!("b is 65536, {}", room(65_535)),
        );
        let long = format!("3 0 0 {}", "9".repeat(99));
        let shown = format!("{}...", "9".repeat(17));
        refuses("close 5", &long, &format!("b is {shown}, {}", room(65_535)));
    }

    #[test]
    fn fifth_fields_that_no_reply_has() {
        for (record, line, why) in [
            ("read 5 0 2", "6 0 0 2", "no bytes, and b is 2"),
            ("read 5 0 2", "6 0 0 2 aa", "1 byte, and b is 2"),
            ("status", "20 0 0 0 aa", "1 byte, and b is 0"),
            (
                "read 5 0 2",
                "6 0 0 2 aa5",
                "the bytes are no pairs of hex digits",
            ),
            (
                "read 5 0 2",
                "6 13 0 2 aa55",
                "2 bytes, and only the answer 0 has any",
            ),
            (
                "write 5 0 aa",
                "8 0 0 1 aa",
                "1 byte, and a reply to 8 write has none",
            ),
        ] {
            refuses(record, line, why);
        }
    }

    #[test]
    fn a_reply_has_room_for_4090_bytes() {
        let line = |bytes: usize| format!("6 0 0 {bytes} {}", "5a".repeat(bytes));
        assert!(made("read 5 0 4096", &line(4_090)).is_ok());
        for bytes in [4_091, 4_096] {
            let why = format!(
                "{bytes} bytes, and b is {bytes}: an audit lends 4090, and answers 13 RANGE to more"
            );
            refuses("read 5 0 4096", &line(bytes), &why);
        }
    }

    #[test]
    fn every_line_is_told() {
        assert_eq!(
            made("close 5\nclose 6\nclose 7\n", "3 0 0\n3 0 0 0\nbad"),
            Err(vec![
                "1: no line of a listing: it has other than four or five fields".to_string(),
                "3: bad: no reply can say this".to_string(),
            ])
        );
    }
}
