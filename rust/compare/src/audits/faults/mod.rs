//! What can be wrong in a maker's log.

mod events;
mod replies;
mod sizes;
mod starts;

use super::pairs::{Given, Pair, OUTPUT};

/// What stands in a record's place; none where it cannot be put in.
type Put = fn(&Pair) -> Option<Vec<u8>>;

/// Which record of a pair is at fault.
#[derive(Clone, Copy, Debug, PartialEq, Eq, PartialOrd, Ord)]
pub enum At {
    /// The first event of a log, and no other.
    Start,
    /// An event.
    Event,
    /// A reply.
    Reply,
}

/// A fault that can be put into a log.
pub struct Fault {
    /// Which record is at fault.
    pub at: At,
    /// The order's word for it, but for the first record of a log.
    pub word: &'static str,
    /// What is wrong.
    pub what: &'static str,
    /// Whether the log ends with it.
    pub ends: bool,
    put: Put,
}

impl Fault {
    const fn new(at: At, word: &'static str, what: &'static str, put: Put) -> Fault {
        Fault {
            at,
            word,
            what,
            ends: false,
            put,
        }
    }

    /// A record, at the end of a log, of which bytes are missing.
    const fn ending(at: At, what: &'static str, put: Put) -> Fault {
        Fault {
            ends: true,
            ..Fault::new(at, "cut", what, put)
        }
    }

    /// What stands in the record's place.
    pub fn put(&self, pair: &Pair) -> Option<Vec<u8>> {
        (self.put)(pair)
    }
}

/// All of them.
pub fn faults() -> impl Iterator<Item = &'static Fault> {
    let of_replies = sizes::FAULTS.iter().chain(replies::FAULTS);
    let of_events = starts::FAULTS.iter().chain(events::FAULTS);
    of_events.chain(of_replies)
}

/// The first bytes of a record that has more.
fn cut(mut record: Vec<u8>, to: usize) -> Option<Vec<u8>> {
    let is_cut = to < record.len();
    record.truncate(to);
    is_cut.then_some(record)
}

/// A record with another length before it.
fn with_length(mut record: Vec<u8>, length: u16) -> Option<Vec<u8>> {
    record[..2].copy_from_slice(&length.to_le_bytes());
    Some(record)
}

/// A reply with other fields, whose bytes are left as they were.
fn changed(pair: &Pair, change: impl FnOnce(&mut Given)) -> Option<Vec<u8>> {
    let mut given = pair.reply.clone();
    change(&mut given);
    Some(given.record())
}

/// A reply with other fields, and as many bytes as these ask for: the first are
/// the right ones.
fn fitted(pair: &Pair, change: impl FnOnce(&mut Given)) -> Option<Vec<u8>> {
    let mut given = pair.reply.clone();
    change(&mut given);
    let length = given.length_for(pair.event);
    given.bytes.resize(length, 0xA5);
    (length <= OUTPUT).then(|| given.record())
}

/// Whether a reply has bytes.
fn has_bytes(pair: &Pair) -> bool {
    !pair.reply.bytes.is_empty()
}

/// Whether a read or load is refused with RANGE, as those of more than 4,090
/// bytes are.
fn is_out_of_range(pair: &Pair) -> bool {
    pair.event.fills() && pair.reply.number == 13
}
