//! How many bytes closes and links moved (order 8), as the Rust kernel counts them.

use crate::log::Log;
use crate::records::Record;
use crate::words::{counted, words};
use exos_kernel::Reply;

/// The kind of a close.
const CLOSE: u16 = 3;
/// The kind of a link.
const LINK: u16 = 21;

/// How many bytes a call moved that is a close or a link and done.
fn moved_by(event: Record, answer: Reply) -> Option<usize> {
    match event {
        Record::Whole {
            kind: CLOSE | LINK, ..
        } if answer.number == 0 => Some(answer.moved as usize),
        _ => None,
    }
}

/// What is said behind an answer: the bytes moved, where a close or a link is done.
pub(super) fn moved_words(event: Record, answer: Reply) -> String {
    moved_by(event, answer).map_or(String::new(), |moved| {
        format!("; {} moved", counted(moved, "byte"))
    })
}

/// A close or a link that is done.
pub(super) struct Done<'a> {
    /// Its record's number.
    record: usize,
    event: Record<'a>,
    /// How many bytes it moved.
    moved: usize,
}

impl<'a> Done<'a> {
    /// That of a record, if its event is a close or a link and done.
    pub(super) fn of(record: usize, event: Record<'a>, answer: Option<Reply>) -> Option<Self> {
        let moved = moved_by(event, answer?)?;
        Some(Done {
            record,
            event,
            moved,
        })
    }
}

/// How many bytes the closes and links of a log moved in all, and which moved the
/// most; none where no close or link is done.
pub(super) fn moved_in_all(log: Log, done: &[Done]) -> Option<String> {
    // the first of several that moved as much
    let most = done.iter().rev().max_by_key(|one| one.moved)?;
    let all = counted(done.iter().map(|one| one.moved).sum(), "byte");
    if most.moved == 0 {
        return Some(format!("{all} moved in all"));
    }
    let (moved, record, event) = (most.moved, log.named(most.record), words(most.event));
    Some(format!(
        "{all} moved in all, most {moved}: {record}, {event}"
    ))
}

#[cfg(test)]
mod tests {
    use crate::{encode, map, At};

    /// Two records, of 100 and 200 bytes.
    const OPENS: &str = "start 11074 252 253 254 255\n\
                         open 5 0 84 \"VIDEO:\"\nopen 6 0 184 \"VIDEO:\"\n";

    /// What is said under the title, but for the record's words.
    fn said(text: &str, at: At) -> Vec<String> {
        let log = encode(format!("{OPENS}{text}").as_bytes()).unwrap();
        map(&log, at).unwrap().lines[1..].to_vec()
    }

    #[test]
    fn of_a_close_or_a_link() {
        for (call, answer) in [
            ("close 5", "0 done, a 0, b 0; 200 bytes moved"),
            ("close 6", "0 done, a 0, b 0; 0 bytes moved"),
            ("close 7", "3 CHANNEL, a 0, b 0"),
            ("link 74 \"DISK\"", "0 done, a 3, b 11000; 300 bytes moved"),
            ("link 0 \"DISK\"", "0 done, a 3, b 11074; 0 bytes moved"),
            ("link 0 \"disk\"", "5 NAME, a 0, b 0"),
            ("reset bits 4", "0 done, a 0, b 0"),
            ("open 7 0 0 \"NET:\"", "0 done, a 1, b 0"),
            ("kind 3 \"\"", "2 CALL, a 0, b 0"),
        ] {
            assert_eq!(said(call, At::After(4)), [answer], "{call}");
        }
    }

    #[test]
    fn in_all_after_the_last_record() {
        let end = |text: &str| said(text, At::End).pop().unwrap();
        for (text, line) in [
            ("boundary", "0 done, a 255, b 10774"),
            ("close 7", "3 CHANNEL, a 0, b 0"),
            ("close 6", "0 bytes moved in all"),
            (
                "close 6\nlink 9 \"DISK\"\nboundary",
                "100 bytes moved in all, most 100: record 5, link 9 \"DISK\"",
            ),
            (
                "link 9 \"A\"\nlink 9 \"B\"\nclose 5\nclose 6",
                "800 bytes moved in all, most 300: record 4, link 9 \"A\"",
            ),
            (
                "close 5\nclose 5\nraw 00",
                "200 bytes moved in all, most 200: record 4, close 5",
            ),
        ] {
            assert_eq!(end(text), line, "{text}");
        }
        let twice = "close 5\nclose 6";
        assert_eq!(said(twice, At::End).len(), 2);
        assert_eq!(said(twice, At::After(5)).len(), 1);
    }

    #[test]
    fn in_a_makers_log() {
        let text = "start 11074 252 255\nreply 0 2 11074\n\
                    open 5 0 84 \"VIDEO:\"\nreply 0 0 0\nopen 6 0 184 \"VIDEO:\"\nreply 0 0 0\n\
                    close 5\nreply 0 0 0\nclose 5\nreply 0 0 0\n";
        let log = encode(text.as_bytes()).unwrap();
        let lines = |at| map(&log, at).unwrap().lines;
        let asked = [
            "close 5",
            "the Rust kernel's answer: 0 done, a 0, b 0; 200 bytes moved",
            "the log's reply: 0 done, a 0, b 0",
        ];
        assert_eq!(lines(At::After(4)), asked);
        assert_eq!(lines(At::Reply(7)), asked);
        let end = [
            "close 5",
            "the Rust kernel's answer: 3 CHANNEL, a 0, b 0",
            "the log's reply: 0 done, a 0, b 0",
            "200 bytes moved in all, most 200: record 4 (event 6, reply 7), close 5",
        ];
        assert_eq!(lines(At::End), end);
        // a cut is told in the place of an answer
        let log = encode(format!("{text}reply 0 0 0\n").as_bytes()).unwrap();
        let cut = map(&log, At::End).unwrap().lines;
        assert_eq!(cut[1], "10 cut: a reply where an event is due");
        assert_eq!(cut[2..], end[3..]);
    }
}
