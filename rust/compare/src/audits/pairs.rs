//! The records of a maker's log, in pairs: an event, and the definition's reply
//! to it.

use exos_kernel::{decode, Machine, Reply};

/// "RAM is lent as in the listing program, output 4,090 bytes."
pub const OUTPUT: usize = 4_090;
/// "A reply record of kind 512."
pub const REPLY: u16 = 512;

/// A record: "length in 2 bytes counting kind and body, kind in 2 bytes, body".
pub fn record(kind: u16, body: &[u8]) -> Vec<u8> {
    let length = (body.len() + 2) as u16;
    [&length.to_le_bytes(), &kind.to_le_bytes(), body].concat()
}

/// An event.
#[derive(Clone, Debug, PartialEq, Eq)]
pub struct Event {
    /// Any but [`REPLY`].
    pub kind: u16,
    /// Any of at most 4,094 bytes.
    pub body: Vec<u8>,
}

impl Event {
    /// The event of a kind and body.
    pub fn new(kind: u16, body: &[u8]) -> Event {
        let body = body.to_vec();
        Event { kind, body }
    }

    /// Its record.
    pub fn record(&self) -> Vec<u8> {
        record(self.kind, &self.body)
    }

    /// Whether it is of a kind whose bytes the listing program prints.
    pub fn fills(&self) -> bool {
        matches!(self.kind, 6 | 20 | 258)
    }
}

/// What a reply says.
#[derive(Clone, Debug, PartialEq, Eq)]
pub struct Given {
    /// The answer number.
    pub number: u8,
    /// The first value.
    pub a: u8,
    /// The second value.
    pub b: u16,
    /// The bytes of the output.
    pub bytes: Vec<u8>,
}

impl Given {
    /// Its record: "answer number u8, a u8, b u16 and the b output bytes".
    pub fn record(&self) -> Vec<u8> {
        let [low, high] = self.b.to_le_bytes();
        let fields = [self.number, self.a, low, high];
        record(REPLY, &[&fields, &self.bytes[..]].concat())
    }

    /// How many bytes a reply to an event has by its own fields: b "where the
    /// listing program would print any".
    pub fn length_for(&self, event: &Event) -> usize {
        if event.fills() && self.number == 0 {
            usize::from(self.b)
        } else {
            0
        }
    }
}

/// An event, and the definition's reply.
pub struct Pair<'a> {
    /// The event.
    pub event: &'a Event,
    /// The reply.
    pub reply: Given,
}

/// The pairs of some events, played one after the other.
pub fn pairs<'a>(events: impl Iterator<Item = &'a Event>) -> Vec<Pair<'a>> {
    let mut machine = Machine::lending(OUTPUT);
    events.map(|event| pair(&mut machine, event)).collect()
}

fn pair<'a>(machine: &mut Machine, event: &'a Event) -> Pair<'a> {
    let Reply { number, a, b, .. } = machine.answer(decode(event.kind, &event.body));
    let mut reply = Given {
        number,
        a,
        b,
        bytes: Vec::new(),
    };
    let bytes = &machine.output()[..reply.length_for(event)];
    reply.bytes.extend(bytes);
    Pair { event, reply }
}

#[cfg(test)]
mod tests {
    use super::*;

    #[test]
    fn the_records_of_a_pair() {
        let events = [
            Event::new(256, &[0x42, 0x2B, 252, 253, 254, 255]),
            Event::new(20, &[]),
            Event::new(3, &[5]),
        ];
        let pairs = pairs(events.iter());
        let start = [8, 0, 0, 1, 0x42, 0x2B, 252, 253, 254, 255];
        assert_eq!(pairs[0].event.record(), start);
        let replies = pairs.iter().map(|pair| pair.reply.record());
        let expected: [&[u8]; 3] = [
            &[6, 0, 0, 2, 0, 4, 0x42, 0x2B],
            &[11, 0, 0, 2, 0, 0, 5, 0, 2, 0, 1, 0, 0],
            &[6, 0, 0, 2, 3, 0, 0, 0],
        ];
        assert!(replies.eq(expected));
    }
}
