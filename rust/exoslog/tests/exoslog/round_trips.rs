//! Records to words and back, over random bytes.

use crate::logs::damage;
use crate::random::Random;
use exoslog::{decode, encode, records, Record, FORMS, REPLY};

const LOGS: usize = 100_000;

/// The bytes come back, and their words are what they are again: a line a
/// record, and in a maker's log one comment for its first cut.
pub fn check(log: &[u8]) {
    let text = decode(log);
    assert_eq!(encode(text.as_bytes()).as_deref(), Ok(log), "{text}");
    let is_comment = |line: &&str| line.starts_with('#');
    let comments = text.lines().filter(is_comment).count();
    assert!(comments <= 1, "{text}");
    assert_eq!(text.lines().count() - comments, records(log).count());
    assert!(exoslog::is_in_words(text.as_bytes()));
}

#[test]
fn random_bytes() {
    let mut random = Random::new(1, 0);
    for _ in 0..LOGS {
        let length = random.below(64);
        check(&random.bytes(length));
    }
}

/// Lengths that are right more often than not, with random kinds and bodies.
#[test]
fn random_records() {
    let mut random = Random::new(2, 0);
    let mut whole = 0;
    for _ in 0..LOGS {
        let mut log = Vec::new();
        for _ in 0..random.below(6) {
            put_record(&mut random, &mut log);
        }
        damage(&mut random, &mut log);
        check(&log);
        whole += records(&log)
            .filter(|record| matches!(record, Record::Whole { .. }))
            .count();
    }
    assert!(whole > LOGS, "{whole}");
}

#[test]
fn long_records() {
    let mut random = Random::new(3, 0);
    for length in [2_u16, 4_094, 4_095, 4_096, 4_097, 65_535] {
        for kind in FORMS.iter().map(|form| form.kind).chain([REPLY]) {
            let mut log = length.to_le_bytes().to_vec();
            log.extend(kind.to_le_bytes());
            log.extend(random.bytes(usize::from(length) - 2));
            check(&log);
            log.pop();
            check(&log);
        }
    }
}

#[test]
fn every_byte_in_a_name_and_in_data() {
    let all: Vec<u8> = (0..=255).collect();
    for head in [&[1, 0, 5, 0, 0, 0][..], &[8, 0, 5, 0, 0]] {
        let mut log = ((head.len() + all.len()) as u16).to_le_bytes().to_vec();
        log.extend(head);
        log.extend(&all);
        check(&log);
    }
}

/// Words in any spelling have the words of `decode` as their one form.
#[test]
fn one_form_for_the_same_records() {
    let spellings = [
        ("reset 0x50", "reset bits 4 6"),
        ("reset bits 6 4", "reset bits 4 6"),
        ("close 0x05 # last", "close 5"),
        ("write 5 0 \"AB\"", "write 5 0 4142"),
        ("write 5 0 41 42", "write 5 0 4142"),
        ("allocate 0", "allocate user"),
        ("kind 3 05", "close 5"),
        ("raw 0200 1400", "status"),
        (
            "load module 253 0 0x100 bytes 3E 01 bytes \"A\" page 0x3 word ABCD end",
            "load module 253 0 256 bytes 3e0141 page 3 word abcd end",
        ),
        (
            "load module 253 0 256 bytes 01 rest 70",
            "load module 253 0 256 bytes 01 illegal",
        ),
        ("open 5 0 1 \"\\x41\\\\\"", "open 5 0 1 \"A\\\\\""),
        ("reply 0x9 00 0", "  reply 9 0 0 # 9 ROOM"),
        ("reply 0 0 2 \"AB\"", "  reply 0 0 2 4142 # 0 done"),
        ("kind 512 09000000", "  reply 9 0 0 # 9 ROOM"),
    ];
    for (spelling, form) in spellings {
        let log = encode(spelling.as_bytes()).unwrap();
        assert_eq!(decode(&log), format!("{form}\n"));
    }
}

/// Puts a record, mostly of a known kind with a body of about its length.
fn put_record(random: &mut Random, log: &mut Vec<u8>) {
    let kind = match random.below(8) {
        0 => random.word(),
        1 | 2 => REPLY,
        _ => FORMS[random.below(FORMS.len())].kind,
    };
    let most = random.pick(&[8, 8, 8, 40]);
    let body = random.below(most);
    log.extend((body as u16 + 2).to_le_bytes());
    log.extend(kind.to_le_bytes());
    log.extend(random.bytes(body));
}
