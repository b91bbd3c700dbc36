//! "Without a whole accepted start": another event in its place.

use super::{At, Fault, Put};
use crate::audits::pairs::record;

const fn start(what: &'static str, put: Put) -> Fault {
    Fault::new(At::Start, "start", what, put)
}

pub(super) const FAULTS: &[Fault] = &[
    Fault {
        ends: true,
        ..start("an empty log", |_| Some(Vec::new()))
    },
    start("R 255", |_| Some(record(256, &[255, 0, 254, 255]))),
    start("a list that does not end with 255", |_| {
        Some(record(256, &[0, 1, 253, 254]))
    }),
    start("five segments", |_| {
        Some(record(256, &[0, 1, 251, 252, 253, 254, 255]))
    }),
    start("half an R", |_| Some(record(256, &[0]))),
    start("another kind", |_| Some(record(20, &[]))),
    start("an unknown kind with a start's body", |pair| {
        Some(record(513, &pair.event.body))
    }),
];
