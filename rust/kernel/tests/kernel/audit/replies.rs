//! "The first of `answer`, `a`, `b`, `bytes` that differs."

use super::{after_start, reply, COUNTS, STATUS};

#[test]
fn each_word_alone() {
    let counts = [2, 0, 1, 0, 0];
    for (answer, word) in [
        (reply(0, 0, 5, &counts), "ok"),
        (reply(1, 0, 5, &[]), "3 answer"),
        (reply(0, 1, 5, &counts), "3 a"),
        (reply(0, 0, 4, &counts[..4]), "3 b"),
        (reply(0, 0, 5, &[3, 0, 1, 0, 0]), "3 bytes"),
    ] {
        assert_eq!(after_start(&[STATUS, &answer]), word);
        assert_eq!(after_start(&[STATUS, &answer, STATUS, COUNTS]), word);
    }
}

#[test]
fn the_first_of_several_words() {
    let other = [9; 5];
    for (answer, word) in [
        (reply(1, 1, 4, &[]), "3 answer"),
        (reply(1, 1, 5, &[]), "3 answer"),
        (reply(0, 1, 4, &other[..4]), "3 a"),
        (reply(0, 1, 5, &other), "3 a"),
        (reply(0, 0, 4, &other[..4]), "3 b"),
        (reply(0, 0, 6, &[2, 0, 1, 0, 0, 0]), "3 b"),
        (reply(0, 0, 5, &other), "3 bytes"),
    ] {
        assert_eq!(after_start(&[STATUS, &answer]), word);
    }
}

#[test]
fn each_bit_of_the_numbers_counts() {
    for bit in 0..8 {
        let flip = 1 << bit;
        let answer = reply(flip, 0, 5, &[]);
        assert_eq!(after_start(&[STATUS, &answer]), "3 answer");
        let a = reply(0, flip, 5, &[2, 0, 1, 0, 0]);
        assert_eq!(after_start(&[STATUS, &a]), "3 a");
    }
    for bit in 0..12 {
        let b = 5 ^ 1 << bit;
        let mut bytes = vec![2, 0, 1, 0, 0];
        bytes.resize(b.into(), 0);
        assert_eq!(after_start(&[STATUS, &reply(0, 0, b, &bytes)]), "3 b");
    }
}

#[test]
fn each_byte_counts() {
    for at in 0..5 {
        let mut bytes = [2, 0, 1, 0, 0];
        bytes[at] ^= 0x80;
        let answer = reply(0, 0, 5, &bytes);
        assert_eq!(after_start(&[STATUS, &answer]), "3 bytes", "{at}");
    }
}
