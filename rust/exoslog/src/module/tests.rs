//! Streams to words and back, and each mistake in the words, to the letter.

use super::*;
use crate::encode;

/// The stream that the items are.
fn stream_of(items: &str) -> Vec<u8> {
    let line = format!("load module 253 0 256 {items}");
    let log = encode(line.as_bytes()).unwrap();
    let (head, stream) = log.split_at(8);
    assert_eq!(head[2..], [30, 0, 253, 0, 0, 1]);
    stream.to_vec()
}

/// The stream and its words are one another's.
fn holds(stream: &[u8], words: &str) {
    assert_eq!(stream_words(stream).join(" "), words);
    assert_eq!(stream_of(words), stream, "{words}");
}

fn mistake(line: &str) -> String {
    let mistakes = encode(line.as_bytes()).unwrap_err();
    assert_eq!(mistakes.len(), 1, "{mistakes:?}");
    mistakes[0].to_string()
}

#[test]
fn each_item() {
    holds(&[0xC0], "end");
    holds(&[0x00, 0xE0], "bytes 01 end");
    holds(&[0x82, 0x46, 0x98], "word 1234 end");
    holds(&[0xA7, 0x80], "page 3 end");
    holds(&[0xAE], "restore end");
    holds(&[0xB4, 0x00, 0x0C], "move 4000 end");
}

#[test]
fn many_items() {
    holds(
        &[
            0x1F, 0x00, 0x59, 0xB0, 0x00, 0x06, 0x85, 0x6F, 0xFF, 0xCD, 0x93, 0x80,
        ],
        "bytes 3e01cd word 0001 page 0 restore move fff3 bytes c9 end",
    );
}

#[test]
fn the_rest_behind_the_items() {
    holds(&[0xC0, 0xFF], "end rest ff");
    holds(&[0xAE, 0x00], "restore end rest 00");
    holds(&[0xE0], "illegal");
    holds(&[0xE1, 0xC0], "illegal rest 01c0");
    holds(&[0xAF, 0xC0], "restore illegal rest c0");
    holds(&[0xC1], "rest c1 # bad padding");
    holds(&[0x00, 0xE8, 0x00], "bytes 01 rest 6800 # bad padding");
    holds(&[], "rest \"\" # input runs out");
    holds(&[0x82, 0x46], "rest 8246 # input runs out");
    holds(&[0x00, 0x80], "bytes 01 rest 00 # input runs out");
    holds(&[0; 9], "bytes 0000000000000000 rest \"\" # input runs out");
}

#[test]
fn mistakes_in_items() {
    let items = "bytes, word, page, restore, move, end, illegal or rest";
    assert_eq!(
        mistake("load module 253 0 256"),
        format!("1:22: expected {items}, found the end of the line")
    );
    assert_eq!(
        mistake("load module 253 0 256 bytes 3e01"),
        format!("1:33: expected {items}, found the end of the line")
    );
    assert_eq!(
        mistake("load module 253 0 256 byte 3e end"),
        format!("1:23: expected {items}, found \"byte\"")
    );
    assert_eq!(
        mistake("load module 253 0 256 page 4 end"),
        "1:28: expected a page 0 to 3, found \"4\""
    );
    assert_eq!(
        mistake("load module 253 0 256 word 12345 end"),
        "1:28: expected a word as four hex digits, found \"12345\""
    );
    assert_eq!(
        mistake("load module 253 0 256 word 0x1234 end"),
        "1:28: expected a word as four hex digits (without 0x), found \"0x1234\""
    );
    assert_eq!(
        mistake("load module 253 0 256 move -1 end"),
        "1:28: expected a move as four hex digits (-1 is ffff), found \"-1\""
    );
    assert_eq!(
        mistake("load module 253 0 256 bytes end"),
        "1:29: expected data as pairs of hex digits or in double quotes, found \"end\""
    );
    assert_eq!(
        mistake("load module 253 0 256 bytes 3e byte 01 end"),
        format!("1:32: expected pairs of hex digits, {items}, found \"byte\"")
    );
    assert_eq!(
        mistake("load module 253 0 256 bytes \"x\"end"),
        "1:32: expected a blank or the end of the line, found \"end\""
    );
    assert_eq!(
        mistake("load module 253 0 256 bytes 100 end"),
        "1:32: expected the second hex digit of a byte, found \" \""
    );
    assert_eq!(
        mistake("load module 253 0 256 end bytes 3e"),
        "1:27: expected rest or the end of the line, found \"bytes\""
    );
}

#[test]
fn mistakes_in_the_rest() {
    assert_eq!(
        mistake("load module 253 0 256 bytes 01 rest 80"),
        "1:37: expected a first byte 00 to 7f, for the 7 bits that the items leave of their last byte, \
         found 80"
    );
    assert_eq!(
        mistake("load module 253 0 256 page 0 rest \"\""),
        "1:35: expected a first byte 00 to 01, for the 1 bit that the items leave of their last byte, \
         found no byte"
    );
    assert_eq!(
        mistake("load module 253 0 256 end rest 00 end"),
        "1:35: expected pairs of hex digits or the end of the line, found \"end\""
    );
    assert_eq!(
        mistake("load module 253 0 256 end rest"),
        "1:31: expected data as pairs of hex digits or in double quotes, found the end of the line"
    );
}

#[test]
fn a_module_has_at_most_4090_bytes() {
    let line = |bytes: usize| format!("load module 253 0 256 rest {}", "00".repeat(bytes));
    assert_eq!(encode(line(4_090).as_bytes()).unwrap().len(), 4_098);
    assert_eq!(
        mistake(&line(4_091)),
        "1:23: expected at most 4090 bytes of module, found 4091"
    );
}
