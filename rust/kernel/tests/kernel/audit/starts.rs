//! "Without a whole accepted start, an empty log included, that is `0 start`."

use super::{reply, verdict, COUNTS, START, STARTED, STATUS};
use crate::listing::record;

#[test]
fn an_empty_log() {
    assert_eq!(verdict(&[]), "0 start");
}

#[test]
fn a_refused_start() {
    for body in [
        &[][..],                                // short of its fixed fields: 2
        &[0x42],                                // the same
        &[0x42, 0x2B],                          // no list: 16
        &[0x42, 0x2B, 255],                     // a list of one
        &[0xFF, 0x00, 254, 255],                // R 255
        &[0x01, 0x3F, 254, 255],                // R 16,129
        &[0x42, 0x2B, 7, 255],                  // a number in 0 to 7
        &[0x42, 0x2B, 254, 253, 255],           // not rising
        &[0x42, 0x2B, 251, 252, 253, 254, 255], // more than four segments
    ] {
        let start = record(256, body);
        for number in [0, 2, 16] {
            let answer = reply(number, 0, 0, &[]);
            assert_eq!(verdict(&[&start, &answer]), "0 start", "{body:?}");
        }
        assert_eq!(verdict(&[&start, STARTED, START, STARTED]), "0 start");
    }
}

#[test]
fn another_kind_first() {
    let tables = reply(1, 0, 0, &[]);
    for kind in [0, 1, 20, 22, 255, 257, 512, 513, 65_535] {
        let event = record(kind, &[]);
        assert_eq!(verdict(&[&event, &tables]), "0 start", "{kind}");
        let log = [&event, &tables, START, STARTED];
        assert_eq!(verdict(&log), "0 start", "{kind}");
    }
    assert_eq!(verdict(&[STARTED, START]), "0 start");
}

/// `0 cut` never comes.
#[test]
fn a_start_that_is_cut_or_ill_sized() {
    for length in 0..START.len() {
        assert_eq!(verdict(&[&START[..length]]), "0 start");
    }
    for length in [0u16, 1, 4_097, 65_535] {
        let behind = [0; 5_000];
        assert_eq!(verdict(&[&length.to_le_bytes(), &behind]), "0 start");
    }
}

/// "A whole accepted start" is the event alone.
#[test]
fn a_good_start_and_its_reply() {
    assert_eq!(verdict(&[START]), "1 cut");
    assert_eq!(verdict(&[START, STARTED]), "ok");
    assert_eq!(verdict(&[START, STATUS]), "1 cut");
    assert_eq!(verdict(&[START, START, STARTED]), "1 cut");
    for (answer, word) in [
        (reply(16, 4, 11_074, &[]), "1 answer"),
        (reply(16, 0, 0, &[]), "1 answer"),
        (reply(0, 3, 11_074, &[]), "1 a"),
        (reply(0, 4, 11_075, &[]), "1 b"),
        (reply(0, 4, 11_074, &[0]), "1 cut"),
    ] {
        assert_eq!(verdict(&[START, &answer, STATUS, COUNTS]), word);
    }
}

#[test]
fn the_least_and_the_most_segments() {
    for list in [&[8, 255][..], &[8, 9, 10, 255]] {
        let start = record(256, &[&[0, 1], list].concat());
        let started = reply(0, list.len() as u8, 256, &[]);
        assert_eq!(verdict(&[&start, &started]), "ok");
    }
}
