//! A log replayed as the listing program runs it.

use crate::records::Record;
use exos_kernel::{decode, Machine, Reply};

/// Makes a record's call; "a bad length or cut record" has no answer.
pub fn answer_to(machine: &mut Machine, record: Record) -> Option<Reply> {
    match record {
        Record::Whole { kind, body } => Some(machine.answer(decode(kind, body))),
        Record::Bad(_) => None,
    }
}

#[cfg(test)]
mod tests {
    use super::*;
    use crate::{encode, records};
    use exos_kernel::SEGMENT;

    #[test]
    fn the_answers_are_those_of_the_listing() {
        let text = br#"
            boundary
            start 11074 251 252 253 254 255
            start 11074 252 253 254 255
            open 5 0 40000 "video:"
            allocate user
            start 255 254 255
            kind 256 00
            user load 253 0 3
            kind 99 01
            raw 0100
        "#;
        let log = encode(text).unwrap();
        let mut machine = Machine::default();
        let replies: Vec<String> = records(&log)
            .map(|record| match answer_to(&mut machine, record) {
                Some(Reply { number, a, b, .. }) => format!("{number} {a} {b}"),
                None => "bad".to_string(),
            })
            .collect();
        let mut listing = Vec::new();
        exos_kernel::listing(&log[..], &mut listing).unwrap();
        let listing = String::from_utf8(listing).unwrap();
        assert_eq!(replies.len(), 10);
        for (reply, line) in replies.iter().zip(listing.lines()) {
            let line = line.split_once(' ').map_or(line, |(_, rest)| rest);
            assert!(line.starts_with(reply), "{line}, {reply}");
        }
    }

    #[test]
    fn no_tables_before_an_accepted_start() {
        let mut machine = Machine::default();
        let log = encode(b"start 11074 254\nstart 11074 254 255").unwrap();
        let mut records = records(&log);
        answer_to(&mut machine, records.next().unwrap());
        assert!(machine.tables().is_none());
        answer_to(&mut machine, records.next().unwrap());
        assert_eq!(machine.tables().unwrap().segments, 2);
        assert_eq!(machine.ram().len(), 2 * SEGMENT);
    }
}
