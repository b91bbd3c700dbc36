//! What is told of two listings, to the letter.

use super::*;
use crate::encode;

fn of(one: &str, two: &str) -> Option<String> {
    compared(one, two, None)
}

fn listing<'a>(name: &'a str, text: &'a str) -> Listing<'a> {
    Listing {
        name,
        text: text.as_bytes(),
    }
}

fn compared(one: &str, two: &str, log: Option<&str>) -> Option<String> {
    let log = log.map(|text| encode(text.as_bytes()).unwrap());
    diff(listing("one", one), listing("two", two), log.as_deref())
}

/// What is told of two lines below them.
fn reasons(one: &str, two: &str) -> String {
    let told = of(&format!("{one}\n"), &format!("{two}\n")).unwrap();
    let lines = format!("record 1 differs\n  one: {one}\n  two: {two}\n");
    told.strip_prefix(&lines).unwrap().to_string()
}

#[test]
fn the_same_listings() {
    for text in ["", "22 0 255 11074\nbad\n", "22 00 255 1\r\nbad", "what"] {
        assert_eq!(of(text, text), None);
    }
}

#[test]
fn an_answer_that_differs_in_words() {
    let one = "256 0 4 11074\n1 9 0 0\n";
    let two = "256 0 4 11074\n1 0 0 7\n";
    let log = "start 11074 252 253 254 255\nopen 5 0 43827 \"VIDEO:\"\n";
    assert_eq!(
        compared(one, two, Some(log)).unwrap(),
        "record 2 differs\n  record: open 5 0 43827 \"VIDEO:\"\n  one: 1 9 0 0\n  two: 1 0 0 7\n  \
         answer: 9 ROOM, 0 done\n  b (unit): 0, 7\n"
    );
}

#[test]
fn bytes_that_differ() {
    for (one, two, reason) in [
        (" aa55", " aa56", "byte 1 is 55, 56"),
        (" aa", "", "byte 0 is aa, none"),
        (" aa", " aabb", "byte 1 is none, bb"),
        (" aab", " aa", "byte 1 is b, none"),
    ] {
        let [one, two] = [one, two].map(|bytes| format!("6 0 0 2{bytes}"));
        assert_eq!(reasons(&one, &two), format!("  bytes: {reason}\n"));
    }
}

#[test]
fn long_lines_and_records_are_cut() {
    let listing = |byte| format!("8 0 0 1000\n6 0 0 1000 {}{byte}\n", "00".repeat(999));
    let log = format!("write 5 0 {}\nread 5 0 1000", "00".repeat(1_000));
    let told = compared(&listing("00"), &listing("01"), Some(&log)).unwrap();
    let line = format!("6 0 0 1000 {}...", "0".repeat(58));
    assert_eq!(
        told,
        format!(
            "record 2 differs\n  record: read 5 0 1000\n  one: {line}\n  two: {line}\n  \
             bytes: byte 999 is 00, 01\n"
        )
    );
    let told = compared("8 0 0 1000\n", "8 3 0 0\n", Some(&log)).unwrap();
    let record = format!("  record: write 5 0 {}...\n", "0".repeat(59));
    assert!(told.contains(&record), "{told}");
}

#[test]
fn a_listing_that_ends_first() {
    assert_eq!(
        compared("20 1 0 0\n", "", Some("status")).unwrap(),
        "record 1 differs\n  record: status\n  one: 20 1 0 0\n  two: ends before this record\n"
    );
    assert_eq!(
        compared("20 1 0 0\n", "20 1 0 0\nbad\n", Some("status")).unwrap(),
        "record 2 differs\n  record: none, the log has 1 record\n  one: ends before this record\n  \
         two: bad\n  two finds a bad length or a cut record here\n"
    );
}

#[test]
fn lines_that_cannot_be_compared() {
    let line = "3 0 0 0";
    assert_eq!(
        reasons(line, "bad"),
        "  two finds a bad length or a cut record here\n"
    );
    assert_eq!(
        reasons("bad", "3 0 0"),
        "  one finds a bad length or a cut record here\n  \
         two has no line of a listing here: it has other than four or five fields\n"
    );
    for (two, found) in [
        ("3 +0 0 0", "answer is \"+0\""),
        ("3  0 0 0", "answer is \"\""),
        ("3 0 x 0", "a is \"x\""),
        ("3 0 0 0 0x", "the bytes are no hex"),
    ] {
        let reason = format!("  two has no line of a listing here: {found}\n");
        assert_eq!(reasons(line, two), reason);
    }
    let no_text = Listing {
        name: "two",
        text: b"3 0 0 0 \xff\n",
    };
    let told = diff(listing("one", "3 0 0 0\n"), no_text, None).unwrap();
    assert!(told.ends_with("\n  two has no line of a listing here: it is no text\n"));
    let told = of("3 0 0 0\n", "\x1b 0 0 0\n").unwrap();
    assert!(told.contains("  two: \\x1b 0 0 0\n"), "{told}");
    assert!(told.ends_with("kind is \"\\u{1b}\"\n"), "{told}");
}

#[test]
fn fields_are_named_by_what_they_are() {
    assert_eq!(
        reasons("22 0 255 10958", "22 0 255 10752"),
        "  b (EXOS boundary): 10958, 10752\n"
    );
    assert_eq!(
        reasons("30 0 0 9", "30 20 0 0"),
        "  answer: 0 done, 20 PAGE\n  b (bytes used): 9, 0\n"
    );
    assert_eq!(reasons("1 7 3 0", "1 7 4 0"), "  a: 3, 4\n");
    assert_eq!(
        reasons("22 0 255 10958", "77 0 255 0"),
        "  kind: 22 boundary, 77 unknown\n  b: 10958, 0\n"
    );
}

#[test]
fn a_read_that_one_refuses_with_range_has_order_2s_sentence() {
    let sentence = "  order 2: read gives RANGE only where the lent output is shorter than what \
                    it would give\n";
    assert_eq!(
        reasons("6 0 0 1 55", "6 13 0 0"),
        format!(
            "  answer: 0 done, 13 RANGE\n  b (bytes given): 1, 0\n  \
             bytes: byte 0 is 55, none\n{sentence}"
        )
    );
    assert_eq!(
        reasons("6 13 0 0", "6 0 0 0"),
        format!("  answer: 13 RANGE, 0 done\n{sentence}")
    );
    for (one, two) in [
        ("6 0 0 2 aa55", "6 0 0 1 aa"),
        ("6 3 0 0", "6 13 0 0"),
        ("6 0 0 1 55", "8 13 0 0"),
        ("8 0 0 1", "8 13 0 0"),
        ("258 0 0 1 55", "258 13 0 0"),
    ] {
        assert!(!reasons(one, two).contains("order 2"), "{one}, {two}");
    }
}

#[test]
fn the_form_of_a_line_is_noted_once_and_hides_no_difference() {
    let ours = "256 0 4 11074\n6 0 0 2 aa55\n22 0 255 10958\n";
    let theirs = "\u{feff}256 00 4 11074\r\n6 0 00 2 AA55 \r\n22 0 255 10752";
    assert_eq!(
        of(ours, theirs).unwrap(),
        "two: record 1 begins with a byte order mark; 01 asks for none\n\
         two: record 1 has 00; 01 asks for plain decimals\n\
         two: record 1 ends with \"\\r\\n\"; 01 asks for \"\\n\" alone\n\
         two: record 2 has A in its bytes; 01 asks for lower-case hex\n\
         two: record 3 has no newline; 01 asks for one\n\
         record 3 differs\n  one: 22 0 255 10958\n  two: 22 0 255 10752\n  \
         b (EXOS boundary): 10958, 10752\n"
    );
    assert_eq!(
        of("3 0 0 0\r\nbad\r\n", "3 0 0 0\nbad\n").unwrap(),
        "one: record 1 ends with \"\\r\\n\"; 01 asks for \"\\n\" alone\nno value differs\n"
    );
}

#[test]
fn a_makers_log_has_its_events_and_both_numbers() {
    let one = "256 0 4 11074\n1 9 0 0\n";
    let two = "256 0 4 11074\n1 0 0 0\r\n";
    let log = "start 11074 252 253 254 255\nreply 0 4 11074\n\
               open 5 0 43827 \"VIDEO:\"\nreply 0 0 0\n";
    assert_eq!(
        compared(one, two, Some(log)).unwrap(),
        "two: record 2 (event 2, reply 3) ends with \"\\r\\n\"; 01 asks for \"\\n\" alone\n\
         record 2 (event 2, reply 3) differs\n  record: open 5 0 43827 \"VIDEO:\"\n  \
         one: 1 9 0 0\n  two: 1 0 0 0\n  answer: 9 ROOM, 0 done\n"
    );
    let told = compared(one, "256 0 4 11074\n", Some("status\nreply 1 0 0\n")).unwrap();
    assert_eq!(
        told,
        "log: record 1 (event 0, reply 1) is 20 status, and neither listing has that: \
         is it their log?\n\
         record 2 (event 2, reply 3) differs\n  record: none, the log has 1 record\n  \
         one: 1 9 0 0\n  two: ends before this record\n"
    );
}

#[test]
fn a_log_of_other_calls_is_noted() {
    let ours = "256 0 4 11074\n3 3 0 0\n22 0 255 11074\nbad\n";
    let theirs = "256 0 4 11074\n3 3 0 0\n20 0 0 0\n";
    for (second, third, begins) in [
        (
            "boundary",
            "status",
            "log: record 2 is 22 boundary, and neither listing has that: is it their log?\n",
        ),
        (
            "close 5",
            "raw 00",
            "log: record 3 is bad, and neither listing has that: is it their log?\n",
        ),
        ("close 5", "boundary", "record 3 differs\n"),
        ("close 5", "status", "record 3 differs\n"),
    ] {
        let log = format!("start 11074 252 253 254 255\n{second}\n{third}\n");
        let told = compared(ours, theirs, Some(&log)).unwrap();
        assert!(told.starts_with(begins), "{told}");
    }
}

#[test]
fn a_makers_log_ends_with_its_first_cut() {
    let log = "start 11074 252 253 254 255\nreply 0 4 11074\nclose 5\nclose 6\nreply 3 0 0\n";
    let one = "256 0 4 11074\n3 3 0 0\n3 3 0 0\n";
    let two = "256 0 4 11074\n3 3 0 0\n3 0 0 0\n";
    assert_eq!(
        compared(one, two, Some(log)).unwrap(),
        "record 3 (event 4, reply 5) differs\n  \
         record: none, an audit of the log goes no further than 3 cut: \
         an event where a reply is due\n  \
         one: 3 3 0 0\n  two: 3 0 0 0\n  answer: 3 CHANNEL, 0 done\n"
    );
}
