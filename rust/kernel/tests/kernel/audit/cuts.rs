//! "`cut` with its number for a cut, ill-sized, missing or misplaced record,
//! where no earlier one is at fault."

use super::{after_start, reply, verdict, BOUND, BOUNDARY, COUNTS, START, STARTED, STATUS};
use crate::listing::record;

#[test]
fn a_log_cut_at_every_byte() {
    let records = [START, STARTED, STATUS, COUNTS, BOUNDARY, BOUND];
    let log = records.concat();
    let mut begins = 0;
    for (number, record) in records.iter().enumerate() {
        for length in 0..record.len() {
            let expected = match (number, length) {
                (0, _) => "0 start".to_string(),
                // nothing is left over, and no reply is due
                (2 | 4, 0) => "ok".to_string(),
                _ => format!("{number} cut"),
            };
            assert_eq!(verdict(&[&log[..begins + length]]), expected);
        }
        begins += record.len();
    }
    assert_eq!(verdict(&[&log]), "ok");
}

/// "Length in 2 bytes counting kind and body (2 to 4,096)."
#[test]
fn lengths_that_no_record_has() {
    for length in [0u16, 1, 4_097, 65_535] {
        let bad = &length.to_le_bytes()[..];
        for behind in [&[][..], &[20, 0], &vec![0; 65_535]] {
            assert_eq!(after_start(&[bad, behind]), "2 cut");
            assert_eq!(after_start(&[STATUS, bad, behind]), "3 cut");
            assert_eq!(verdict(&[START, bad, behind]), "1 cut");
        }
    }
}

#[test]
fn the_longest_and_the_shortest_event() {
    let long = record(8, &[5; 4_094]);
    assert_eq!(after_start(&[&long, &reply(3, 0, 0, &[])]), "ok");
    assert_eq!(after_start(&[&long[..4_097]]), "2 cut");
    assert_eq!(after_start(&[&long]), "3 cut");
    assert_eq!(after_start(&[STATUS, COUNTS]), "ok");
}

/// A missing reply has the number that it would have had.
#[test]
fn a_reply_that_is_missing() {
    assert_eq!(after_start(&[STATUS]), "3 cut");
    assert_eq!(after_start(&[STATUS, COUNTS, STATUS]), "5 cut");
    assert_eq!(after_start(&[STATUS, BOUNDARY, BOUND]), "3 cut");
}

/// Kind 512 where an event is due, and any other kind where a reply is due.
#[test]
fn records_that_are_misplaced() {
    assert_eq!(after_start(&[COUNTS]), "2 cut");
    assert_eq!(after_start(&[STARTED, STATUS]), "2 cut");
    assert_eq!(after_start(&[STATUS, COUNTS, COUNTS]), "4 cut");
    assert_eq!(after_start(&[&record(512, &[])]), "2 cut");
    for kind in [0, 2, 20, 256, 511, 513, 514, 65_535] {
        let other = record(kind, &[0, 0, 5, 0, 2, 0, 1, 0, 0]);
        assert_eq!(after_start(&[STATUS, &other]), "3 cut", "{kind}");
    }
}

#[test]
fn a_reply_short_of_its_fields() {
    for length in 0..4 {
        let short = record(512, &[0, 255, 0x42, 0x2B][..length]);
        assert_eq!(after_start(&[BOUNDARY, &short]), "3 cut", "{length}");
    }
    assert_eq!(after_start(&[BOUNDARY, BOUND]), "ok");
}

/// 6, or 6 + its b where its answer is 0, the event is 6, 20 or 258 and its b >
/// 0: by its own fields, whatever the definition's are.
#[test]
fn a_reply_is_sized_by_its_own_fields() {
    let counts = [2, 0, 1, 0, 0];
    for (event, number, b, bytes, word) in [
        (STATUS, 0, 5, &counts[..], "ok"),
        (STATUS, 0, 5, &counts[..4], "3 cut"),
        (STATUS, 0, 5, &[], "3 cut"),
        (STATUS, 0, 5, &[2, 0, 1, 0, 0, 0], "3 cut"),
        (STATUS, 0, 4, &counts[..4], "3 b"),
        (STATUS, 0, 4, &counts, "3 cut"),
        (STATUS, 0, 6, &[2, 0, 1, 0, 0, 0], "3 b"),
        (STATUS, 0, 6, &counts, "3 cut"),
        (STATUS, 0, 0, &[], "3 b"),
        (STATUS, 0, 0, &counts, "3 cut"),
        (STATUS, 0, 261, &counts, "3 cut"),
        (STATUS, 13, 5, &[], "3 answer"),
        (STATUS, 13, 5, &counts, "3 cut"),
        (STATUS, 13, 0, &[], "3 answer"),
        (STATUS, 17, 5, &counts, "3 cut"),
        (BOUNDARY, 0, 11_074, &[], "3 a"),
        (BOUNDARY, 0, 5, &[], "3 a"),
        (BOUNDARY, 0, 5, &counts, "3 cut"),
        (BOUNDARY, 1, 5, &counts, "3 cut"),
    ] {
        let answer = reply(number, 0, b, bytes);
        let said = after_start(&[event, &answer]);
        assert_eq!(said, word, "{event:?} {answer:?}");
    }
}

/// The kind decides, and not whether its body was good.
#[test]
fn a_reply_with_bytes_to_a_bad_body() {
    let bad = record(6, &[5]);
    let given = |b, bytes: &[u8]| after_start(&[&bad, &reply(0, 0, b, bytes)]);
    assert_eq!(given(2, &[1, 2]), "3 answer");
    assert_eq!(given(2, &[]), "3 cut");
    assert_eq!(given(0, &[]), "3 answer");
    let unknown = record(262, &[]);
    let given = reply(0, 0, 2, &[1, 2]);
    assert_eq!(after_start(&[&unknown, &given]), "3 cut");
}

/// At one record `cut` goes before the four words.
#[test]
fn ill_sized_and_wrong_in_each_word() {
    let wrong = |bytes: &[u8]| reply(9, 9, 9, bytes);
    assert_eq!(after_start(&[STATUS, &wrong(&[])]), "3 answer");
    assert_eq!(after_start(&[STATUS, &wrong(&[9])]), "3 cut");
    assert_eq!(after_start(&[STATUS, &wrong(&[9; 9])]), "3 cut");
    let cut = &wrong(&[])[..7];
    assert_eq!(after_start(&[STATUS, cut]), "3 cut");
}

/// Less than a length's two bytes left over is a cut record.
#[test]
fn one_byte_left_over() {
    for byte in [0, 2, 255] {
        assert_eq!(after_start(&[&[byte]]), "2 cut");
        assert_eq!(after_start(&[STATUS, &[byte]]), "3 cut");
        assert_eq!(verdict(&[&[byte]]), "0 start");
    }
}
