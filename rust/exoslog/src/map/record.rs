//! What a picture says of the record at which it is drawn.

use super::moved::moved_words;
use crate::listing::first_difference;
use crate::log::{Asked, Log};
use crate::records::Record;
use crate::reply::{gives_bytes, ReplyRecord, REPLY};
use crate::words::words;
use exos_kernel::{hex, Machine, Reply};

/// A log's record in words, the machine's answer to it, just given, and, in a
/// maker's log, the reply that follows.
pub(super) fn said_of(
    machine: &Machine,
    log: Log,
    asked: &Asked,
    answer: Option<Reply>,
) -> Vec<String> {
    let mut lines = vec![words(asked.event)];
    if let Some(cut) = asked.cut.as_ref().filter(|cut| cut.is_of_event()) {
        lines.push(cut.to_string());
        return lines;
    }
    match (asked.event, answer) {
        (Record::Whole { kind, .. }, Some(answer)) if log.is_makers => {
            let due = due(machine, kind, answer);
            let said = due.said() + &moved_words(asked.event, answer);
            lines.push(format!("the Rust kernel's answer: {said}"));
            lines.extend(replied(&due, asked));
        }
        (event, Some(answer)) => {
            lines.push(numbers(answer).said() + &moved_words(event, answer));
        }
        (_, None) => lines.push("bad: the listing ends here".to_string()),
    }
    lines
}

/// What stands in the place of the reply that is due to an event.
fn replied(due: &ReplyRecord, asked: &Asked) -> Vec<String> {
    let mut lines = Vec::new();
    match (&asked.cut, asked.reply) {
        (Some(cut), _) => lines.push(cut.to_string()),
        (None, Some(Record::Whole { kind: REPLY, body })) => {
            if let Some(reply) = ReplyRecord::read(body) {
                lines.push(format!("the log's reply: {}", reply.said()));
                lines.extend(other_bytes(due, &reply));
            }
        }
        (None, _) => {}
    }
    lines
}

/// The first byte that differs where no number does.
fn other_bytes(due: &ReplyRecord, reply: &ReplyRecord) -> Option<String> {
    let numbers = |of: &ReplyRecord| (of.answer, of.a, of.b);
    if numbers(due) != numbers(reply) {
        return None;
    }
    first_difference(&hex(due.bytes), &hex(reply.bytes))
}

/// An answer without bytes.
fn numbers(answer: Reply) -> ReplyRecord<'static> {
    let Reply { number, a, b, .. } = answer;
    ReplyRecord {
        answer: number,
        a,
        b,
        bytes: &[],
    }
}

/// The reply to a call of a kind, just answered.
fn due(machine: &Machine, kind: u16, answer: Reply) -> ReplyRecord<'_> {
    let is_given = answer.number == 0 && gives_bytes(kind);
    let bytes = if is_given { answer.b.into() } else { 0 };
    ReplyRecord {
        bytes: &machine.output()[..bytes],
        ..numbers(answer)
    }
}

#[cfg(test)]
mod tests {
    use crate::{encode, map, At};

    /// What is said of the last record but for its words.
    fn said(text: &str) -> Vec<String> {
        let start = "start 11074 252 255\nreply 0 2 11074\n\
                     open 5 0 5000 \"VIDEO:\"\nreply 0 0 0\n\
                     write 5 0 aa55\nreply 0 0 2\n";
        let log = encode(format!("{start}{text}").as_bytes()).unwrap();
        let at = |at| map(&log, at).unwrap().lines;
        let lines = at(At::End);
        assert_eq!(at(At::Reply(6)), lines);
        lines[1..].to_vec()
    }

    #[test]
    fn bytes_of_answer_and_reply() {
        let answer = "the Rust kernel's answer: 0 done, a 0, b 2, bytes aa55";
        for (reply, lines) in [
            (
                "0 0 2 aa55",
                &["the log's reply: 0 done, a 0, b 2, bytes aa55"][..],
            ),
            (
                "0 0 2 aa56",
                &[
                    "the log's reply: 0 done, a 0, b 2, bytes aa56",
                    "bytes: byte 1 is 55, 56",
                ],
            ),
            ("13 0 0", &["the log's reply: 13 RANGE, a 0, b 0"]),
            ("0 0 1 ab", &["the log's reply: 0 done, a 0, b 1, bytes ab"]),
        ] {
            let said = said(&format!("read 5 0 2\nreply {reply}"));
            assert_eq!(said[0], answer);
            assert_eq!(said[1..], *lines);
        }
    }

    #[test]
    fn an_audit_refuses_what_passes_its_output() {
        let range = "13 RANGE, a 0, b 0";
        for call in ["read 5 0 4091", "user load 252 0 4096"] {
            assert_eq!(
                said(&format!("{call}\nreply 13 0 0")),
                [
                    format!("the Rust kernel's answer: {range}"),
                    format!("the log's reply: {range}")
                ]
            );
        }
        let said = said("read 5 0 4090\nreply 13 0 0");
        assert!(said[0].starts_with("the Rust kernel's answer: 0 done, a 0, b 4090, bytes aa55"));
    }

    #[test]
    fn what_is_cut() {
        let answer = "the Rust kernel's answer: 0 done, a 0, b 5, bytes 0000010000";
        for (text, cut) in [
            ("status", "7 cut: the log ends where a reply is due"),
            ("status\nstatus", "7 cut: an event where a reply is due"),
            ("status\nreply 0 0 5", "7 cut: no bytes, and b is 5"),
        ] {
            assert_eq!(said(text), [answer, cut], "{text}");
        }
        for (text, cut) in [
            ("reply 0 0 0", "6 cut: a reply where an event is due"),
            ("raw 00", "6 cut: a bad length or a cut record"),
        ] {
            assert_eq!(said(text), [cut], "{text}");
        }
    }
}
