//! "A cut, ill-sized, missing or misplaced record" where an event is due.

use super::{cut, with_length, At, Fault, Put};
use crate::audits::pairs::record;

const fn event(what: &'static str, put: Put) -> Fault {
    Fault::new(At::Event, "cut", what, put)
}

const fn ending(what: &'static str, put: Put) -> Fault {
    Fault::ending(At::Event, what, put)
}

pub(super) const FAULTS: &[Fault] = &[
    ending("event: half a length", |pair| cut(pair.event.record(), 1)),
    ending("event: a length alone", |pair| cut(pair.event.record(), 2)),
    ending("event: half a kind", |pair| cut(pair.event.record(), 3)),
    ending("event: its last byte missing", |pair| {
        let record = pair.event.record();
        let to = record.len() - 1;
        cut(record, to)
    }),
    event("event: length 0", |_| Some(vec![0, 0])),
    event("event: length 1, half a kind", |_| Some(vec![1, 0, 20])),
    event("event: length 4,097, and as many bytes", |pair| {
        Some(record(pair.event.kind, &[0; 4_095]))
    }),
    event("event: length 65,535", |pair| {
        with_length(pair.event.record(), 65_535)
    }),
    event("event: a reply in its place", |pair| {
        Some(pair.reply.record())
    }),
];
