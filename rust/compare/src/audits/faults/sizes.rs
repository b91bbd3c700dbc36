//! "A cut, ill-sized, missing or misplaced record" where a reply is due.

use super::{changed, cut, has_bytes, is_out_of_range, with_length, At, Fault, Put};
use crate::audits::pairs::{record, REPLY};

const fn reply(what: &'static str, put: Put) -> Fault {
    Fault::new(At::Reply, "cut", what, put)
}

const fn ending(what: &'static str, put: Put) -> Fault {
    Fault::ending(At::Reply, what, put)
}

pub(super) const FAULTS: &[Fault] = &[
    ending("reply: missing at the end", |_| Some(Vec::new())),
    ending("reply: half a length", |pair| cut(pair.reply.record(), 1)),
    ending("reply: a length alone", |pair| cut(pair.reply.record(), 2)),
    ending("reply: half a kind", |pair| cut(pair.reply.record(), 3)),
    ending("reply: a kind alone", |pair| cut(pair.reply.record(), 4)),
    ending("reply: half a b", |pair| cut(pair.reply.record(), 7)),
    ending("reply: its last byte missing", |pair| {
        let record = pair.reply.record();
        let to = record.len() - 1;
        cut(record, to)
    }),
    reply("reply: length 0", |_| Some(vec![0, 0])),
    reply("reply: length 1, half a kind", |_| Some(vec![1, 0, 0])),
    reply("reply: length 2, no field", |_| Some(record(REPLY, &[]))),
    reply("reply: length 5, half a b", |pair| {
        let record = cut(pair.reply.record(), 7)?;
        with_length(record, 5)
    }),
    reply("reply: length 4,097, and as many bytes", |_| {
        Some(record(REPLY, &[0; 4_095]))
    }),
    reply("reply: length 65,535", |pair| {
        with_length(pair.reply.record(), 65_535)
    }),
    reply("reply: an event in its place", |_| Some(record(20, &[]))),
    reply("reply: kind 513", |pair| {
        Some(record(513, &pair.reply.record()[4..]))
    }),
    reply("reply: a byte too many", |pair| {
        changed(pair, |given| given.bytes.push(0))
    }),
    reply("reply: a byte too few", |pair| {
        let fewer = changed(pair, |given| {
            given.bytes.pop();
        });
        fewer.filter(|_| has_bytes(pair))
    }),
    reply("reply: done, its bytes not there", |pair| {
        let none = changed(pair, |given| given.bytes.clear());
        none.filter(|_| has_bytes(pair))
    }),
    reply("reply: refused, the bytes still there", |pair| {
        let refused = changed(pair, |given| given.number = 13);
        refused.filter(|_| has_bytes(pair))
    }),
    reply("reply: done by no right, no bytes there", |pair| {
        let done = changed(pair, |given| (given.number, given.b) = (0, 5));
        done.filter(|_| pair.event.fills() && !has_bytes(pair))
    }),
    reply("reply: b bytes of a kind that gives none", |pair| {
        let b = usize::from(pair.reply.b);
        let with = changed(pair, |given| given.bytes = vec![0; b]);
        with.filter(|_| !pair.event.fills() && (1..100).contains(&b))
    }),
    reply("reply: each word wrong, and a byte too many", |pair| {
        changed(pair, |given| {
            given.number ^= 1;
            given.a ^= 1;
            given.b ^= 1;
            given.bytes.push(0);
        })
    }),
    reply("reply: done with 4,091 bytes", |pair| {
        let done = changed(pair, |given| {
            (given.number, given.b) = (0, 4_091);
            given.bytes = vec![0; 4_091];
        });
        done.filter(|_| is_out_of_range(pair))
    }),
    reply("reply: done with 4,096 bytes that are not there", |pair| {
        let done = changed(pair, |given| (given.number, given.b) = (0, 4_096));
        done.filter(|_| is_out_of_range(pair))
    }),
];
