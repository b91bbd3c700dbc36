//! Texts to records, and each mistake to the letter.

use super::*;

fn mistakes(text: &[u8]) -> Vec<String> {
    let mistakes = encode(text).unwrap_err();
    mistakes.iter().map(Mistake::to_string).collect()
}

fn mistake(text: &str) -> String {
    let all = mistakes(text.as_bytes());
    assert_eq!(all.len(), 1, "{all:?}");
    all[0].clone()
}

#[test]
fn the_example_of_01() {
    let text = br#"# 01's example
start 11074 252 253 254 255
open 5 0 100 "VIDEO:"

boundary
"#;
    let log = [
        &[0x08, 0x00, 0x00, 0x01, 0x42, 0x2B, 0xFC, 0xFD, 0xFE, 0xFF][..],
        b"\x0c\x00\x01\x00\x05\x00\x64\x00VIDEO:",
        &[2, 0, 22, 0],
    ];
    assert_eq!(encode(text), Ok(log.concat()));
}

#[test]
fn blanks_comments_line_ends_and_hex_numbers() {
    let plain = encode(b"write 5 98 aa55\nclose 5\n").unwrap();
    for text in [
        "\twrite  0x5\t0x0062 AA 55 # why \"#\" ?\r\n\r\n  # only this\r\nclose 005#x",
        "write 5 98 \"\\xaa\\x55\"\nclose 5",
        "write 5 98 \"\\xaaU\"\nkind 3 05\n",
        "raw 0700 0800 05 6200 aa55\nraw 03000300\nraw 05\n",
    ] {
        assert_eq!(encode(text.as_bytes()), Ok(plain.clone()), "{text}");
    }
    let marked = "\u{feff}write 5 98 aa55\nclose 5\n";
    assert_eq!(encode(marked.as_bytes()), Ok(plain));
    assert_eq!(encode(b""), Ok(vec![]));
    assert_eq!(encode(b"\n \n#\n"), Ok(vec![]));
}

#[test]
fn flags_and_callers() {
    assert_eq!(encode(b"reset bits 4 6"), encode(b"reset 0x50"));
    assert_eq!(encode(b"reset bits 6 4 4"), encode(b"reset 80"));
    assert_eq!(encode(b"free user 9"), encode(b"free 0 9"));
    assert_eq!(encode(b"allocate device"), encode(b"allocate 1"));
}

#[test]
fn numbers_have_a_kind_and_a_most() {
    assert_eq!(
        mistake("open abc 0 100 \"VIDEO:\""),
        "1:6: expected a channel number 0 to 255, found \"abc\""
    );
    assert_eq!(
        mistake("close 256"),
        "1:7: expected a channel number 0 to 255, found \"256\""
    );
    assert_eq!(
        mistake("read 5 65536 1"),
        "1:8: expected an offset 0 to 65535, found \"65536\""
    );
    assert_eq!(
        mistake("close +5"),
        "1:7: expected a channel number 0 to 255, found \"+5\""
    );
    assert_eq!(
        mistake("close 0x"),
        "1:7: expected a channel number 0 to 255, found \"0x\""
    );
    assert_eq!(
        mistake("close 0x+5"),
        "1:7: expected a channel number 0 to 255, found \"0x+5\""
    );
    assert_eq!(
        mistake("close -5"),
        "1:7: expected a channel number 0 to 255, found \"-5\""
    );
    assert_eq!(
        mistake("close"),
        "1:6: expected a channel number 0 to 255, found the end of the line"
    );
    assert_eq!(
        mistake("close # 5"),
        "1:7: expected a channel number 0 to 255, found the end of the line"
    );
    assert_eq!(
        mistake("start 11074 252 x"),
        "1:17: expected a segment number 0 to 255, found \"x\""
    );
    assert_eq!(
        mistake("reset bits 8"),
        "1:12: expected a bit 0 to 7, found \"8\""
    );
    assert_eq!(
        mistake("reset bits"),
        "1:11: expected a bit 0 to 7, found the end of the line"
    );
    assert_eq!(
        mistake("reset all"),
        "1:7: expected bits, or flags 0 to 255, found \"all\""
    );
    assert_eq!(
        mistake("allocate me"),
        "1:10: expected user, device or a caller 0 to 255, found \"me\""
    );
    assert_eq!(
        mistake("kind 65536 \"\""),
        "1:6: expected a kind 0 to 65535, found \"65536\""
    );
}

#[test]
fn words_that_begin_a_line() {
    assert_eq!(
        mistake("opne 5"),
        "1:1: expected start, reset, open, close, read, write, default, status, link, \
         boundary, set, allocate, free, load, user, reply, kind or raw, found \"opne\""
    );
    assert_eq!(
        mistake("set usr boundary 5"),
        "1:5: expected user, found \"usr\""
    );
    assert_eq!(
        mistake("user"),
        "1:5: expected store or load, found the end of the line"
    );
    assert_eq!(
        mistake("status 5"),
        "1:8: expected the end of the line, found \"5\""
    );
    assert_eq!(
        mistake("close 5 6"),
        "1:9: expected the end of the line, found \"6\""
    );
}

#[test]
fn names_are_quoted() {
    assert_eq!(
        mistake("open 5 0 100 VIDEO:"),
        "1:14: expected a name in double quotes, found \"VIDEO:\""
    );
    assert_eq!(
        mistake("open 5 0 100 \"VIDEO:"),
        "1:21: expected a closing double quote, found the end of the line"
    );
    assert_eq!(
        mistake("open 5 0 100 \"a\\q\""),
        "1:16: expected \\\\, \\\" or \\x and two hex digits, found \"\\\\q\""
    );
    assert_eq!(
        mistake("open 5 0 100 \"a\\x4\""),
        "1:19: expected the second hex digit of a byte, found \"\\\"\""
    );
    assert_eq!(
        mistakes(b"default 0 \"caf\xc3\xa9\""),
        ["1:15: expected a printable byte or \\x and two hex digits, found \"\\xc3\""]
    );
    assert_eq!(
        mistake("default 0 \"NET\"x"),
        "1:16: expected a blank or the end of the line, found \"x\""
    );
    assert_eq!(encode(b"default 0 \"NET\"#x"), encode(b"default 0 \"NET\""));
}

#[test]
fn data_is_pairs_of_hex_digits() {
    assert_eq!(
        mistake("write 5 98"),
        "1:11: expected data as pairs of hex digits or in double quotes, found the end of the line"
    );
    assert_eq!(
        mistake("write 5 98 xyz"),
        "1:12: expected data as pairs of hex digits or in double quotes, found \"xyz\""
    );
    assert_eq!(
        mistake("write 5 98 aag5"),
        "1:14: expected a hex digit, found \"g\""
    );
    assert_eq!(
        mistake("write 5 98 aa bad"),
        "1:18: expected the second hex digit of a byte, found the end of the line"
    );
    assert_eq!(
        mistake("write 5 98 aa end"),
        "1:15: expected pairs of hex digits or the end of the line, found \"end\""
    );
    assert_eq!(
        mistake("write 5 98 aa5 5"),
        "1:15: expected the second hex digit of a byte, found \" \""
    );
    assert_eq!(
        mistake("raw 010"),
        "1:8: expected the second hex digit of a byte, found the end of the line"
    );
    assert_eq!(
        mistake("raw"),
        "1:4: expected bytes as pairs of hex digits, found the end of the line"
    );
}

#[test]
fn a_record_has_at_most_4096_bytes() {
    let line = |bytes: usize| format!("write 5 98 {}", "00".repeat(bytes));
    assert_eq!(encode(line(4_091).as_bytes()).unwrap().len(), 4_098);
    assert_eq!(
        mistake(&line(4_092)),
        "1:12: expected at most 4091 bytes of data, found 4092"
    );
    let name = |bytes: usize| format!("link 9 \"{}\"", "\\x00".repeat(bytes));
    assert_eq!(encode(name(4_092).as_bytes()).unwrap().len(), 4_098);
    assert_eq!(
        mistake(&name(4_093)),
        "1:8: expected at most 4092 bytes of name, found 4093"
    );
    let list = format!("start 256{}", " 9".repeat(4_093));
    assert_eq!(
        mistake(&list),
        "1:11: expected at most 4092 segment numbers, found 4093"
    );
    assert_eq!(
        mistake(&format!("kind 9 {}", "00".repeat(4_095))),
        "1:8: expected at most 4094 bytes of data, found 4095"
    );
    let raw = format!("raw {}", "ff".repeat(9_000));
    assert_eq!(encode(raw.as_bytes()).unwrap().len(), 9_000);
}

#[test]
fn every_lines_first_mistake_is_told() {
    assert_eq!(
        mistakes(b"close a b\nclose 5\n\n  close c\r\n"),
        [
            "1:7: expected a channel number 0 to 255, found \"a\"",
            "4:9: expected a channel number 0 to 255, found \"c\""
        ]
    );
}

#[test]
fn long_words_are_cut_in_messages() {
    let word = "z".repeat(33);
    assert_eq!(
        mistake(&format!("close {word}")),
        format!(
            "1:7: expected a channel number 0 to 255, found \"{}...\"",
            "z".repeat(32)
        )
    );
}

#[test]
fn the_mark_is_as_wide_as_the_word() {
    for (text, shown) in [
        ("clöse 5", "    clöse 5\n    ^^^^^\n"),
        ("\u{feff}opne 5", "    opne 5\n    ^^^^\n"),
        ("link 9 \"é\"", "    link 9 \"é\"\n            ^\n"),
    ] {
        let mistake = &encode(text.as_bytes()).unwrap_err()[0];
        let told = mistake.show("f", text.as_bytes());
        assert!(told.ends_with(shown), "{told}");
    }
}
