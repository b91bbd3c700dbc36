//! Whole logs: accepted ones, and what is named of those with faults.

use super::{after_start, reply, verdict, BOUND, BOUNDARY, COUNTS, START, STARTED, STATUS};
use crate::listing::record;
use exos_kernel::{audit, Verdict, Word};
use std::io::{self, Read};

/// 01's example, its second read by order 2.
#[test]
fn the_example_is_accepted() {
    let log = [
        (START.to_vec(), reply(0, 4, 11_074, &[])),
        (record(1, b"\x05\x00\x64\x00VIDEO:"), reply(0, 0, 0, &[])),
        (record(22, &[]), reply(0, 255, 10_958, &[])),
        (record(8, &[5, 98, 0, 0xAA, 0x55]), reply(0, 0, 2, &[])),
        (record(6, &[5, 98, 0, 2, 0]), reply(0, 0, 2, &[0xAA, 0x55])),
        (record(6, &[5, 99, 0, 2, 0]), reply(0, 0, 1, &[0x55])),
        (record(3, &[5]), reply(0, 0, 0, &[])),
        (record(22, &[]), reply(0, 255, 11_074, &[])),
    ];
    let records: Vec<&[u8]> = log
        .iter()
        .flat_map(|(event, reply)| [&event[..], &reply[..]])
        .collect();
    for pairs in 1..=log.len() {
        assert_eq!(verdict(&records[..2 * pairs]), "ok");
    }
}

#[test]
fn every_sort_of_reply_is_accepted() {
    for (event, reply) in [
        (record(24, &[0]), reply(0, 253, 16_384, &[])),
        (record(0, &[0]), reply(0, 0, 0, &[])),
        (record(0, &[1]), reply(15, 0, 0, &[])),
        (
            record(1, b"\x05\x09\x00\x00VIDEO:"),
            reply(7, 9, 0, &[]), // "DRIVER: a is that status"
        ),
        (record(258, &[252, 0, 0, 3, 0]), reply(0, 0, 3, &[0; 3])),
        (record(258, &[252, 0, 0, 0, 0]), reply(0, 0, 0, &[])),
        (record(257, &[252, 0, 1, 9, 9]), reply(0, 0, 2, &[])),
        (record(30, &[252, 0, 0, 1, 0x00, 0xE0]), reply(0, 0, 2, &[])),
    ] {
        assert_eq!(after_start(&[&event, &reply]), "ok", "{event:?}");
    }
}

/// "17 SHARED is a grant", and its b is no number of bytes.
#[test]
fn a_grant_has_no_bytes() {
    let user = &record(24, &[0])[..];
    let (first, second) = (&reply(0, 253, 16_384, &[])[..], reply(0, 254, 16_384, &[]));
    let shared = reply(17, 255, 11_074, &[]);
    let log = [user, first, user, &second, user, &shared];
    assert_eq!(after_start(&log), "ok");
}

#[test]
fn a_read_of_nothing_has_a_reply_without_bytes() {
    let open = record(1, b"\x05\x00\x01\x00VIDEO:");
    let past = record(6, &[5, 1, 0, 0, 1]);
    let opened = reply(0, 0, 0, &[]);
    assert_eq!(after_start(&[&open, &opened, &past, &opened]), "ok");
    let none = reply(0, 0, 0, &[0]);
    assert_eq!(after_start(&[&open, &opened, &past, &none]), "5 cut");
}

/// A bad body is no ill-sized record: "CALL: kind unknown; body short of its
/// fixed fields, or longer without name, data or list".
#[test]
fn bad_bodies_and_unknown_kinds_are_answered_2() {
    let long = vec![0; 4_094];
    for event in [
        record(20, &[1]),
        record(20, &long),
        record(6, &[5]),
        record(256, &[]),
        record(513, &[0, 0, 0, 0]),
        record(2, &[]),
        record(65_535, &long),
    ] {
        assert_eq!(after_start(&[&event, &reply(2, 0, 0, &[])]), "ok");
        assert_eq!(after_start(&[&event, &reply(0, 0, 0, &[])]), "3 answer");
    }
}

/// A later start is an event like any other.
#[test]
fn later_starts() {
    let two = record(256, &[0x00, 0x02, 253, 255]);
    let again = reply(0, 2, 512, &[]);
    let bound = reply(0, 255, 512, &[]);
    assert_eq!(after_start(&[&two, &again, BOUNDARY, &bound]), "ok");
    assert_eq!(after_start(&[&two, &again, BOUNDARY, BOUND]), "5 b");
    for refused in [
        record(256, &[0x42, 0x2B, 251, 252, 253, 254, 255]),
        record(256, &[0xFF, 0x00, 254, 255]),
    ] {
        let answer = reply(16, 0, 0, &[]);
        assert_eq!(after_start(&[&refused, &answer, STATUS, COUNTS]), "ok");
        let done = reply(0, 5, 11_074, &[]);
        assert_eq!(after_start(&[&refused, &done, STATUS, COUNTS]), "3 answer");
    }
}

/// "The first record at fault", whatever follows.
#[test]
fn what_stands_behind_the_first_fault_is_not_looked_at() {
    let wrong = &reply(0, 1, 5, &[2, 0, 1, 0, 0])[..];
    for behind in [&[][..], &[0], &[0xFF; 5_000], STATUS, COUNTS, wrong] {
        assert_eq!(after_start(&[STATUS, wrong, behind]), "3 a");
        assert_eq!(after_start(&[STATUS, STATUS, behind]), "3 cut");
        assert_eq!(after_start(&[COUNTS, behind]), "2 cut");
        assert_eq!(verdict(&[STATUS, COUNTS, behind]), "0 start");
    }
    assert_eq!(after_start(&[STATUS, COUNTS, STATUS, wrong, STATUS]), "5 a");
}

#[test]
fn events_and_replies_are_counted_together_in_a_long_log() {
    const PAIRS: usize = 40_000;
    let pairs = [STATUS, COUNTS].concat().repeat(PAIRS);
    let log = [START, STARTED, &pairs].concat();
    assert_eq!(audit(&log[..]).unwrap(), Verdict::Ok);
    let cut = audit(&log[..log.len() - 1]).unwrap();
    let record = 2 * PAIRS as u64 + 1;
    let word = Word::Cut;
    assert_eq!(cut, Verdict::Fault { record, word });
}

/// Gives a byte at a time, and then an error.
struct Slow<'a>(&'a [u8]);

impl Read for Slow<'_> {
    fn read(&mut self, to: &mut [u8]) -> io::Result<usize> {
        let Some((&byte, rest)) = self.0.split_first() else {
            return Err(io::Error::other("the disk is gone"));
        };
        to[0] = byte;
        self.0 = rest;
        Ok(1)
    }
}

#[test]
fn a_log_that_cannot_be_read_has_no_verdict() {
    let log = [START, STARTED, STATUS].concat();
    assert!(audit(Slow(&log)).is_err());
    let log = [START, STARTED, STATUS, STATUS].concat();
    assert_eq!(audit(Slow(&log)).unwrap().to_string(), "3 cut");
}
