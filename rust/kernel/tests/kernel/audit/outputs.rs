//! "RAM is lent as in the listing program, output 4,090 bytes."

use super::{after_start, reply, STATUS};
use crate::listing::record;

/// The page zero segment loaded from its start.
fn load(length: u16) -> Vec<u8> {
    let [low, high] = length.to_le_bytes();
    record(258, &[252, 0, 0, low, high])
}

#[test]
fn a_load_of_4090_bytes_is_the_longest() {
    let most = reply(0, 0, 4_090, &[0; 4_090]);
    assert_eq!(most.len(), 2 + 4_096);
    let range = reply(13, 0, 0, &[]);
    assert_eq!(after_start(&[&load(4_090), &most]), "ok");
    assert_eq!(after_start(&[&load(4_090), &range]), "3 answer");
    for length in [4_091, 4_096, 16_384] {
        assert_eq!(after_start(&[&load(length), &range]), "ok", "{length}");
        assert_eq!(after_start(&[&load(length), &most]), "3 answer");
    }
}

/// What the listing program answers, with 4,096 bytes of output.
#[test]
fn a_reply_of_more_than_4090_bytes_is_ill_sized() {
    for b in [4_091, 4_096, 65_535] {
        let [low, high] = u16::to_le_bytes(b);
        let length = b.wrapping_add(6).to_le_bytes();
        let head = [length[0], length[1], 0, 2, 0, 0, low, high];
        let bytes = vec![0; b.into()];
        assert_eq!(after_start(&[&load(b), &head, &bytes]), "3 cut");
        assert_eq!(after_start(&[&load(b), &reply(0, 0, b, &[])]), "3 cut");
        let bytes = [0; 4_090];
        assert_eq!(after_start(&[&load(b), &reply(0, 0, b, &bytes)]), "3 cut");
    }
}

/// Order 2: "read gives RANGE only where the lent output is shorter than what
/// it would give".
#[test]
fn a_read_stops_at_the_end_or_at_4090_bytes() {
    let open = record(1, b"\x05\x00\xFB\x0FVIDEO:"); // n 4,091
    let opened = reply(0, 0, 0, &[]);
    let read = |offset| record(6, &[5, offset, 0, 0xFF, 0xFF]);
    let given = |b: u16| reply(0, 0, b, &vec![0; b.into()]);
    let said = |event: &[u8], answer: &[u8]| after_start(&[&open, &opened, event, answer]);
    assert_eq!(said(&read(0), &reply(13, 0, 0, &[])), "ok");
    assert_eq!(said(&read(0), &given(4_090)), "5 answer");
    assert_eq!(said(&read(1), &given(4_090)), "ok");
    assert_eq!(said(&read(1), &reply(13, 0, 0, &[])), "5 answer");
    assert_eq!(said(&read(2), &given(4_089)), "ok");
}

#[test]
fn the_last_of_4090_bytes_counts() {
    for at in [0, 2_045, 4_089] {
        let mut bytes = [0; 4_090];
        bytes[at] = 1;
        let answer = reply(0, 0, 4_090, &bytes);
        assert_eq!(after_start(&[&load(4_090), &answer]), "3 bytes", "{at}");
    }
}

/// Bytes of the output that an earlier call left count for no later one.
#[test]
fn an_output_is_filled_anew() {
    let counts = reply(0, 0, 5, &[2, 0, 1, 0, 0]);
    let zeros = reply(0, 0, 5, &[0; 5]);
    assert_eq!(after_start(&[STATUS, &counts, &load(5), &zeros]), "ok");
    assert_eq!(
        after_start(&[STATUS, &counts, &load(5), &counts]),
        "5 bytes"
    );
    let range = reply(13, 0, 0, &[]);
    let log = [STATUS, &counts, &load(4_091), &range, STATUS, &counts];
    assert_eq!(after_start(&log), "ok");
}
