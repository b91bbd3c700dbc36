//! A log by its records: events or, in a maker's log, events with their replies.

use crate::records::{records, Record};
use crate::reply::{ReplyRecord, REPLY};
use crate::words::counted;
use std::fmt;
use std::iter;

/// A log. Record K, from 1, is what line K of the listing answers; in a maker's
/// log it has an event and a reply.
#[derive(Clone, Copy, Debug)]
pub struct Log<'a> {
    bytes: &'a [u8],
    /// Whether it is a maker's log.
    pub is_makers: bool,
}

/// A record: an event and, in a maker's log, what follows as its reply.
#[derive(Clone, Debug, PartialEq, Eq)]
pub struct Asked<'a> {
    /// The event.
    pub event: Record<'a>,
    /// Its reply.
    pub reply: Option<Record<'a>>,
    /// The `cut` that an audit finds in one of them.
    pub cut: Option<Cut>,
}

/// "A cut, ill-sized, missing or misplaced record."
#[derive(Clone, Debug, PartialEq, Eq)]
pub struct Cut {
    /// Its number, "events and replies counted together from 0".
    pub number: usize,
    /// Why it is one.
    pub why: String,
}

impl Cut {
    /// Whether an event is due there.
    pub fn is_of_event(&self) -> bool {
        self.number % 2 == 0
    }
}

impl fmt::Display for Cut {
    fn fmt(&self, f: &mut fmt::Formatter) -> fmt::Result {
        write!(f, "{} cut: {}", self.number, self.why)
    }
}

impl<'a> Log<'a> {
    /// A log of either form. That of a maker is known by its second record,
    /// which is a reply.
    pub fn of(bytes: &'a [u8]) -> Log<'a> {
        let second = records(bytes).nth(1);
        let is_makers = matches!(second, Some(Record::Whole { kind: REPLY, .. }));
        Log { bytes, is_makers }
    }

    /// A maker's log, whatever its second record is.
    pub fn makers(bytes: &'a [u8]) -> Log<'a> {
        Log {
            bytes,
            is_makers: true,
        }
    }

    /// Its records in their order. Those of a maker's log end with the first that
    /// has a `cut`.
    pub fn asked(self) -> impl Iterator<Item = Asked<'a>> {
        let mut records = records(self.bytes);
        let mut number = 0;
        let mut is_cut = false;
        iter::from_fn(move || {
            let event = records.next().filter(|_| !is_cut)?;
            let asked = if self.is_makers {
                Asked::of(number, event, || records.next())
            } else {
                Asked::event(event)
            };
            number += 2;
            is_cut = asked.cut.is_some();
            Some(asked)
        })
    }

    /// A record by its number from 1.
    pub fn record(self, record: usize) -> Result<Asked<'a>, NoRecord> {
        let row = record.checked_sub(1);
        let asked = row.and_then(|row| self.asked().nth(row));
        asked.ok_or_else(|| NoRecord {
            record: self.named(record),
            records: self.asked().count(),
            cut: self.cut(),
        })
    }

    /// The first `cut` of a maker's log.
    pub fn cut(self) -> Option<Cut> {
        self.asked().find_map(|asked| asked.cut)
    }

    /// A record by its number from 1 and, in a maker's log, by those of its event
    /// and its reply: `record 6 (event 10, reply 11)`.
    pub fn named(self, record: usize) -> String {
        if !self.is_makers {
            return format!("record {record}");
        }
        // the double of the largest number is larger
        let event = (record as u128).saturating_sub(1) * 2;
        format!("record {record} (event {event}, reply {})", event + 1)
    }
}

/// The record, from 1, with the event or the reply that an audit counts so.
pub(crate) fn record_with(number: usize) -> usize {
    number / 2 + 1
}

impl<'a> Asked<'a> {
    /// A record of a log of events.
    fn event(event: Record<'a>) -> Asked<'a> {
        Asked {
            event,
            reply: None,
            cut: None,
        }
    }

    /// An event that an audit counts so, and what follows it as its reply.
    fn of(
        number: usize,
        event: Record<'a>,
        next: impl FnOnce() -> Option<Record<'a>>,
    ) -> Asked<'a> {
        if let Some(why) = no_event(event) {
            let cut = Some(Cut { number, why });
            return Asked {
                cut,
                ..Asked::event(event)
            };
        }
        let reply = next();
        let number = number + 1;
        let cut = no_reply(event, reply).map(|why| Cut { number, why });
        Asked { event, reply, cut }
    }
}

/// "A bad length or cut record."
const BAD: &str = "a bad length or a cut record";

/// Why a record is none where an event is due.
fn no_event(record: Record) -> Option<String> {
    match record {
        Record::Bad(_) => Some(BAD.to_string()),
        Record::Whole { kind: REPLY, .. } => Some("a reply where an event is due".to_string()),
        Record::Whole { .. } => None,
    }
}

/// Why a record is none where the reply to an event is due.
fn no_reply(event: Record, record: Option<Record>) -> Option<String> {
    let body = match record {
        None => return Some("the log ends where a reply is due".to_string()),
        Some(Record::Bad(_)) => return Some(BAD.to_string()),
        Some(Record::Whole { kind: REPLY, body }) => body,
        Some(Record::Whole { .. }) => return Some("an event where a reply is due".to_string()),
    };
    let Some(reply) = ReplyRecord::read(body) else {
        return Some("a reply short of its fixed fields".to_string());
    };
    match event {
        Record::Whole { kind, .. } => reply.ill_sized_for(kind),
        Record::Bad(_) => None,
    }
}

/// The log has no such record.
#[derive(Clone, Debug, PartialEq, Eq)]
pub struct NoRecord {
    /// The record that was asked for, by its name.
    pub record: String,
    /// How many records the log has.
    pub records: usize,
    /// Where an audit finds its first `cut`.
    pub cut: Option<Cut>,
}

impl NoRecord {
    /// What is said of a log's file.
    pub fn said_of(&self, file: &str) -> String {
        format!("no {}: {}", self.record, self.why(file))
    }

    /// Why the file has no such record.
    pub(crate) fn why(&self, file: &str) -> String {
        match &self.cut {
            None => format!("{file} has {}", counted(self.records, "record")),
            Some(cut) => format!("an audit of {file} goes no further than {cut}"),
        }
    }
}

#[cfg(test)]
mod tests {
    use super::*;
    use crate::encode;

    /// The log that words are, as a maker's, by its number of records and its cut.
    fn makers(text: &str) -> (usize, Option<String>) {
        let bytes = encode(text.as_bytes()).unwrap();
        let log = Log::makers(&bytes);
        (log.asked().count(), log.cut().map(|cut| cut.to_string()))
    }

    fn is_makers(text: &str) -> bool {
        Log::of(&encode(text.as_bytes()).unwrap()).is_makers
    }

    #[test]
    fn the_second_record_tells_the_form() {
        assert!(is_makers("status\nreply 0 0 0"));
        assert!(is_makers("status\nkind 512 \"\"\nraw 00"));
        assert!(is_makers("status\nreply 0 0 0\nstatus\nstatus"));
        for text in [
            "",
            "status",
            "status\nstatus",
            "reply 0 0 0\nstatus\nreply 0 0 0",
        ] {
            assert!(!is_makers(text), "{text}");
        }
        assert!(!is_makers("status\nraw 0600 0002"));
    }

    #[test]
    fn records_of_either_form() {
        let text = b"status\nreply 1 0 0\nboundary\nreply 1 0 0";
        let bytes = encode(text).unwrap();
        let log = Log::of(&bytes);
        assert_eq!((log.asked().count(), log.cut()), (2, None));
        assert_eq!(log.record(2).unwrap().reply, records(&bytes).nth(3));
        assert_eq!(log.named(2), "record 2 (event 2, reply 3)");
        let bytes = encode(b"status\nboundary\nkind 512 \"\"").unwrap();
        let log = Log::of(&bytes);
        assert_eq!((log.asked().count(), log.cut()), (3, None));
        assert_eq!(log.record(3).unwrap().reply, None);
        assert_eq!(log.named(3), "record 3");
    }

    #[test]
    fn the_first_cut_ends_a_makers_log() {
        let first = "status\nreply 1 0 0\n";
        for (text, records, cut) in [
            ("", 1, None),
            (
                "status",
                2,
                Some("3 cut: the log ends where a reply is due"),
            ),
            (
                "reply 1 0 0\nstatus",
                2,
                Some("2 cut: a reply where an event is due"),
            ),
            (
                "kind 512 \"\"",
                2,
                Some("2 cut: a reply where an event is due"),
            ),
            ("raw 00", 2, Some("2 cut: a bad length or a cut record")),
            (
                "status\nstatus\nreply 1 0 0",
                2,
                Some("3 cut: an event where a reply is due"),
            ),
            (
                "status\nraw 0600 0002",
                2,
                Some("3 cut: a bad length or a cut record"),
            ),
            (
                "status\nkind 512 000000",
                2,
                Some("3 cut: a reply short of its fixed fields"),
            ),
            (
                "read 5 0 2\nreply 0 0 2",
                2,
                Some("3 cut: no bytes, and b is 2"),
            ),
            (
                "write 5 0 aa55\nreply 0 0 2 aa55",
                2,
                Some("3 cut: 2 bytes, and a reply to 8 write has none"),
            ),
            ("write 5 0 aa55\nreply 0 0 2", 2, None),
            ("read 5 0 2\nreply 0 0 2 aa55", 2, None),
        ] {
            let found = makers(&format!("{first}{text}"));
            assert_eq!(found, (records, cut.map(str::to_string)), "{text}");
        }
        assert_eq!(makers(""), (0, None));
    }

    #[test]
    fn numbers_of_events_and_replies() {
        let bytes = encode(b"status\nreply 1 0 0\nstatus\nreply 1 0 0\nstatus").unwrap();
        let numbers: Vec<usize> = (0..6).map(record_with).collect();
        assert_eq!(numbers, [1, 1, 2, 2, 3, 3]);
        assert_eq!(
            Log::makers(&bytes).record(4).unwrap_err().said_of("x"),
            "no record 4 (event 6, reply 7): an audit of x goes no further than 5 cut: \
             the log ends where a reply is due"
        );
        let bytes = &bytes[..bytes.len() - 4];
        let none = Log::of(bytes).record(usize::MAX).unwrap_err();
        assert_eq!(
            none.said_of("x"),
            "no record 18446744073709551615 (event 36893488147419103228, \
             reply 36893488147419103229): x has 2 records"
        );
        let none = Log::makers(&[]).record(record_with(0)).unwrap_err();
        assert_eq!(
            none.said_of("x"),
            "no record 1 (event 0, reply 1): x has 0 records"
        );
    }
}
