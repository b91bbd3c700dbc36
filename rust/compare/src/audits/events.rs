//! Events to make logs of.

use super::pairs::{Event, REPLY};
use crate::cases::played;
use crate::plan::{plan, Plan};
use crate::protocol::{Case, Request, IMAGE};
use exoslog::LONGEST;

/// The most segments that are lent.
const SEGMENTS: usize = 4;
/// R 11,074, segments 252 to 255.
const START: &[u8] = &[0x42, 0x2B, 252, 253, 254, 255];

/// A start of two segments, status, boundary: few bytes in all.
pub fn few() -> [Event; 3] {
    [
        Event::new(256, &[0, 1, 254, 255]),
        Event::new(20, &[]),
        Event::new(22, &[]),
    ]
}

/// Every kind, done and refused; the last event is a read of some bytes.
pub fn all_kinds() -> Vec<Event> {
    let events: &[(u16, &[u8])] = &[
        (256, START),
        (20, &[]),
        (1, b"\x05\x00\x64\x00VIDEO:"),
        (22, &[]),
        (8, &[5, 98, 0, 0xAA, 0x55]),
        (6, &[5, 98, 0, 2, 0]),
        (6, &[5, 99, 0, 2, 0]),
        // nothing to give
        (6, &[5, 100, 0, 2, 0]),
        // CHANNEL
        (6, &[7, 0, 0, 2, 0]),
        (21, b"\x10\x00DISC"),
        (19, b"\x00net"),
        (1, b"\x06\x00\x09\x00disc:"),
        // EXISTS
        (1, b"\x06\x00\x09\x00disc:"),
        // DRIVER: "a is that status"
        (1, b"\x07\x09\x09\x00disc:"),
        (24, &[0]),
        (24, &[1]),
        (257, &[253, 0, 0, 1, 2, 3]),
        (258, &[253, 0, 0, 3, 0]),
        (30, &[253, 0, 16, 0, 0x00, 0xE0]),
        (258, &[253, 15, 0, 2, 0]),
        // OWNER
        (258, &[251, 0, 0, 2, 0]),
        // SHARED
        (24, &[0]),
        (23, &[100, 0]),
        (257, &[255, 98, 0, 1, 2]),
        // RANGE
        (258, &[255, 99, 0, 2, 0]),
        (25, &[0, 253]),
        (3, &[5]),
        (0, &[0x50]),
        // FLAGS
        (0, &[1]),
        // START, five segments
        (256, &[0x42, 0x2B, 251, 252, 253, 254, 255]),
        // CALL: an unknown kind, and a body too long
        (513, &[0, 0, 0, 0]),
        (20, &[0]),
        // a later start that is accepted
        (256, &[0, 2, 250, 255]),
        (1, b"\x01\x00\x05\x00VIDEO:"),
        (8, b"\x01\x00\x00abcde"),
        (6, &[1, 0, 0, 9, 0]),
    ];
    events
        .iter()
        .map(|&(kind, body)| Event::new(kind, body))
        .collect()
}

/// Reads and loads around 4,090 bytes, "output 4,090 bytes": of a buffer of 5,000
/// bytes, and of the page zero segment.
pub fn outputs() -> Vec<Event> {
    let data = (0..4_090u16).map(|at| (at % 251) as u8 + 1);
    let write: Vec<u8> = [5, 0, 0].into_iter().chain(data).collect();
    let of = |kind, of, offset: u16, length: u16| {
        let [offset, length] = [offset, length].map(u16::to_le_bytes);
        Event::new(kind, &[&[of], &offset[..], &length].concat())
    };
    let read = |offset, length| of(6, 5, offset, length);
    let load = |offset, length| of(258, 252, offset, length);
    vec![
        Event::new(256, START),
        Event::new(1, b"\x05\x00\x88\x13VIDEO:"),
        Event::new(8, &write),
        read(0, 4_089),
        read(0, 4_090),
        read(0, 4_091),
        read(0, 4_096),
        read(910, 65_535),
        read(909, 65_535),
        load(0, 4_090),
        load(0, 4_091),
        load(12_288, 4_096),
        read(4_999, 4_096),
    ]
}

/// The events of the steered logs of a seed that begin with a start of at most
/// four segments.
pub fn steered(seed: u64) -> impl Iterator<Item = Vec<Event>> {
    let is_log = |number: &u64| matches!(plan(*number), Plan::Log | Plan::DamagedLog);
    let cases = (0..).filter(is_log).map(move |number| played(seed, number));
    cases.filter_map(|played| of_case(&played.case))
}

fn of_case(case: &Case) -> Option<Vec<Event>> {
    let (kind, body) = case.requests.first()?.event()?;
    let begins = case.image == [0; IMAGE] && kind == 256 && body.len() <= 2 + SEGMENTS;
    begins.then(|| case.requests.iter().filter_map(of_request).collect())
}

/// The event of a request, if a log can have it.
fn of_request(request: &Request) -> Option<Event> {
    let (kind, body) = request.event()?;
    let fits = request.record.len() <= LONGEST && kind != REPLY;
    fits.then(|| Event::new(kind, body))
}

#[cfg(test)]
mod tests {
    use super::*;
    use crate::audits::pairs::{pairs, Given};
    use exos_kernel::{decode, Machine};
    use exoslog::FORMS;

    fn replies(events: &[Event]) -> Vec<Given> {
        let pairs = pairs(events.iter());
        pairs.into_iter().map(|pair| pair.reply).collect()
    }

    #[test]
    fn every_kind_is_done() {
        let events = all_kinds();
        let replies = replies(&events);
        let calls = || events.iter().zip(&replies);
        for form in FORMS {
            let mut of_kind = calls().filter(|call| call.0.kind == form.kind);
            assert!(of_kind.any(|call| call.1.number == 0), "{}", form.words);
        }
        for number in [2, 3, 4, 7, 11, 13, 15, 16, 17] {
            let mut given = replies.iter();
            assert!(given.any(|reply| reply.number == number), "{number}");
        }
        assert_eq!(replies.last().unwrap().bytes, b"abcde");
    }

    #[test]
    fn outputs_are_answered_otherwise_by_the_listing() {
        let mut listing = Machine::default();
        let numbers = outputs().into_iter().map(|event| {
            let reply = listing.answer(decode(event.kind, &event.body));
            reply.number
        });
        let ours = replies(&outputs());
        let ours = ours.iter().map(|reply| reply.number);
        let differ: Vec<bool> = ours.zip(numbers).map(|(ours, its)| ours != its).collect();
        let at: Vec<usize> = (0..differ.len()).filter(|&row| differ[row]).collect();
        assert_eq!(at, [5, 6, 8, 10, 11]);
    }

    #[test]
    fn steered_logs_begin_with_an_accepted_start() {
        for events in steered(1).take(5) {
            assert!(events.len() > 40);
            assert_eq!(replies(&events)[0].number, 0);
        }
    }
}
