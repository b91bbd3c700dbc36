//! "The first of `answer`, `a`, `b`, `bytes` that differs."

use super::{changed, fitted, has_bytes, is_out_of_range, At, Fault, Put};
use crate::audits::pairs::Pair;

const fn answer(what: &'static str, put: Put) -> Fault {
    Fault::new(At::Reply, "answer", what, put)
}

const fn a(what: &'static str, put: Put) -> Fault {
    Fault::new(At::Reply, "a", what, put)
}

const fn b(what: &'static str, put: Put) -> Fault {
    Fault::new(At::Reply, "b", what, put)
}

const fn bytes(what: &'static str, put: Put) -> Fault {
    Fault::new(At::Reply, "bytes", what, put)
}

pub(super) const FAULTS: &[Fault] = &[
    answer("another number", |pair| {
        fitted(pair, |given| given.number ^= 1)
    }),
    answer("refused in the place of done with bytes", |pair| {
        let refused = fitted(pair, |given| (given.number, given.b) = (13, 0));
        refused.filter(|_| has_bytes(pair))
    }),
    answer("done with bytes in the place of refused", |pair| {
        let done = fitted(pair, |given| (given.number, given.b) = (0, 3));
        done.filter(|_| pair.event.fills() && pair.reply.number != 0)
    }),
    answer("done with 4,090 bytes in the place of refused", |pair| {
        let done = fitted(pair, |given| (given.number, given.b) = (0, 4_090));
        done.filter(|_| is_out_of_range(pair))
    }),
    answer("each word wrong", |pair| {
        fitted(pair, |given| {
            given.number ^= 1;
            given.a ^= 1;
            given.b ^= 1;
        })
    }),
    a("another a", |pair| fitted(pair, |given| given.a ^= 1)),
    a("another a and b", |pair| {
        fitted(pair, |given| {
            given.a ^= 0x80;
            given.b ^= 1;
        })
    }),
    a("another a and other bytes", |pair| {
        flipped(pair, 0x80, |_| 0)
    }),
    b("one more", |pair| {
        fitted(pair, |given| given.b = given.b.wrapping_add(1))
    }),
    b("one less", |pair| {
        fitted(pair, |given| given.b = given.b.wrapping_sub(1))
    }),
    b("another high byte", |pair| {
        fitted(pair, |given| given.b ^= 0x100)
    }),
    b("one less, and other bytes", |pair| {
        let other = fitted(pair, |given| {
            given.b = given.b.wrapping_sub(1);
            given.bytes.iter_mut().for_each(|byte| *byte ^= 1);
        });
        other.filter(|_| has_bytes(pair))
    }),
    bytes("the first", |pair| flipped(pair, 0, |_| 0)),
    bytes("a middle one", |pair| {
        let middle = flipped(pair, 0, |length| length / 2);
        middle.filter(|_| pair.reply.bytes.len() > 2)
    }),
    bytes("the last", |pair| flipped(pair, 0, |length| length - 1)),
];

/// A reply with bits of a changed, and a bit of the byte that is chosen by how
/// many there are.
fn flipped(pair: &Pair, a: u8, at: fn(usize) -> usize) -> Option<Vec<u8>> {
    if !has_bytes(pair) {
        return None;
    }
    changed(pair, |given| {
        given.a ^= a;
        let at = at(given.bytes.len());
        given.bytes[at] ^= 1;
    })
}
