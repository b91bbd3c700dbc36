//! A log in words.

use crate::log::{record_with, Cut, Log, NoRecord};
use crate::records::{records, Record};
use crate::reply::REPLY;
use crate::words::words;
use std::iter;

/// A log in words, one record a line, a reply set in below its event.
/// [`encode`](crate::encode) gives exactly these bytes back. In a maker's log a
/// comment stands before the first record of which an audit says `cut`.
pub fn decode(log: &[u8]) -> String {
    text(0, records(log), Log::of(log).cut())
}

/// The event and the reply one of which an audit counts so, in words, below a
/// comment with their numbers.
pub fn decode_reply(log: &[u8], number: usize) -> Result<String, NoRecord> {
    let log = Log::makers(log);
    let record = record_with(number);
    let asked = log.record(record)?;
    let both = iter::once(asked.event).chain(asked.reply);
    let lines = text(2 * (record - 1), both, asked.cut);
    Ok(format!("# {}\n{lines}", log.named(record)))
}

/// Records in words, the first of which an audit counts so.
fn text<'a>(first: usize, records: impl Iterator<Item = Record<'a>>, cut: Option<Cut>) -> String {
    let cut_line = |number: usize| match &cut {
        Some(cut) if cut.number == number => format!("# {cut}\n"),
        _ => String::new(),
    };
    let mut text = String::new();
    let mut number = first;
    for record in records {
        text.push_str(&cut_line(number));
        text.push_str(&line(record));
        number += 1;
    }
    // where a reply is missing
    text + &cut_line(number)
}

fn line(record: Record) -> String {
    let margin = match record {
        Record::Whole { kind: REPLY, .. } => "  ",
        _ => "",
    };
    format!("{margin}{}\n", words(record))
}

#[cfg(test)]
mod tests {
    use super::*;
    use crate::encode;

    fn log(text: &str) -> Vec<u8> {
        encode(text.as_bytes()).unwrap()
    }

    #[test]
    fn replies_stand_below_their_events() {
        let text = "start 11074 252 255\n  reply 0 2 11074 # 0 done\nread 5 0 2\n  \
                    reply 0 0 2 aa55 # 0 done\nclose 9\n  reply 3 0 0 # 3 CHANNEL\n";
        assert_eq!(decode(&log(text)), text);
    }

    #[test]
    fn the_first_cut_of_a_makers_log_is_told_before_it() {
        let start = "start 11074 252 255\n  reply 0 2 11074 # 0 done\n";
        for (rest, words) in [
            (
                "status\nstatus\nreply 9 0 0\n",
                "status\n# 3 cut: an event where a reply is due\nstatus\n  reply 9 0 0 # 9 ROOM\n",
            ),
            (
                "reply 9 0 0\nreply 9 0 0\n",
                "# 2 cut: a reply where an event is due\n  reply 9 0 0 # 9 ROOM\n  \
                 reply 9 0 0 # 9 ROOM\n",
            ),
            (
                "status\n",
                "status\n# 3 cut: the log ends where a reply is due\n",
            ),
            (
                "status\nraw 0600 0002\n",
                "status\n# 3 cut: a bad length or a cut record\n\
                 raw 0600 0002 # cut: length 6, bytes 2\n",
            ),
        ] {
            let log = log(&format!("{start}{rest}"));
            assert_eq!(decode(&log), format!("{start}{words}"));
            assert_eq!(encode(decode(&log).as_bytes()), Ok(log));
        }
        let plain = "status\nstatus\n  reply 9 0 0 # 9 ROOM\n";
        assert_eq!(decode(&log(plain)), plain);
    }

    #[test]
    fn an_event_and_its_reply_by_their_numbers() {
        let log = log("status\nreply 1 0 0\nboundary\nreply 1 0 0\nclose 5");
        let second = "# record 2 (event 2, reply 3)\nboundary\n  reply 1 0 0 # 1 TABLES\n";
        for number in [2, 3] {
            assert_eq!(decode_reply(&log, number).as_deref(), Ok(second));
        }
        let third = "# record 3 (event 4, reply 5)\nclose 5\n\
                     # 5 cut: the log ends where a reply is due\n";
        for number in [4, 5] {
            assert_eq!(decode_reply(&log, number).as_deref(), Ok(third));
        }
        assert!(decode_reply(&log, 6).is_err());
    }

    #[test]
    fn an_audit_of_a_log_of_events_ends_with_its_second() {
        let log = log("status\nboundary\nclose 5");
        let first = "# record 1 (event 0, reply 1)\nstatus\n\
                     # 1 cut: an event where a reply is due\nboundary\n";
        assert_eq!(decode_reply(&log, 1).as_deref(), Ok(first));
        let none = decode_reply(&log, 2).unwrap_err();
        assert_eq!(
            none.said_of("x"),
            "no record 2 (event 2, reply 3): an audit of x goes no further than 1 cut: \
             an event where a reply is due"
        );
    }
}
