//! The listing program.

use exos_kernel::listing;

fn list(input: &[u8]) -> String {
    let mut output = Vec::new();
    listing(input, &mut output).unwrap();
    String::from_utf8(output).unwrap()
}

/// An event record.
pub fn record(kind: u16, body: &[u8]) -> Vec<u8> {
    let mut bytes = (body.len() as u16 + 2).to_le_bytes().to_vec();
    bytes.extend(kind.to_le_bytes());
    bytes.extend(body);
    bytes
}

/// "Start, bytes 08 00 00 01 42 2B FC FD FE FF."
pub const START: &[u8] = &[0x08, 0x00, 0x00, 0x01, 0x42, 0x2B, 0xFC, 0xFD, 0xFE, 0xFF];

#[test]
fn the_example_to_the_letter() {
    let mut input = START.to_vec();
    input.extend(record(1, b"\x05\x00\x64\x00VIDEO:"));
    input.extend(record(22, &[]));
    input.extend(record(8, &[5, 98, 0, 0xAA, 0x55]));
    input.extend(record(6, &[5, 98, 0, 2, 0]));
    input.extend(record(6, &[5, 99, 0, 2, 0]));
    input.extend(record(3, &[5]));
    input.extend(record(22, &[]));
    // order 2: "The line `6 13 0 0` of 01's listing becomes `6 0 0 1 55`."
    let expected = "256 0 4 11074\n1 0 0 0\n22 0 255 10958\n8 0 0 2\n6 0 0 2 aa55\n6 0 0 1 55\n3 0 0 0\n22 0 255 11074\n";
    assert_eq!(list(&input), expected);
}

#[test]
fn before_an_accepted_start_every_other_kind_answers_1() {
    let mut input = Vec::new();
    for kind in [0, 1, 2, 3, 20, 22, 30, 255, 257, 258, 259, 65_535] {
        input.extend(record(kind, &[]));
    }
    input.extend(record(256, &[0x42]));
    input.extend(record(256, &[0x42, 0x2B]));
    input.extend(record(20, &[]));
    let expected = "0 1 0 0\n1 1 0 0\n2 1 0 0\n3 1 0 0\n20 1 0 0\n22 1 0 0\n30 1 0 0\n255 1 0 0\n257 1 0 0\n258 1 0 0\n259 1 0 0\n65535 1 0 0\n256 2 0 0\n256 16 0 0\n20 1 0 0\n";
    assert_eq!(list(&input), expected);
}

#[test]
fn a_start_of_more_than_four_segments_answers_16_and_leaves_all() {
    let mut input = START.to_vec();
    input.extend(record(257, &[252, 0, 1, 0x5A]));
    input.extend(record(256, &[0x42, 0x2B, 251, 252, 253, 254, 255]));
    input.extend(record(258, &[252, 0, 1, 1, 0]));
    input.extend(record(256, &[0x42, 0x2B, 253, 255]));
    input.extend(record(20, &[]));
    input.extend(record(258, &[253, 0, 1, 1, 0]));
    let expected = "256 0 4 11074\n257 0 0 1\n256 16 0 0\n258 0 0 1 5a\n256 0 2 11074\n20 0 0 5 0000010000\n258 0 0 1 00\n";
    assert_eq!(list(&input), expected);
}

#[test]
fn a_refused_start_leaves_what_is_lent() {
    let mut input = START.to_vec();
    input.extend(record(256, &[0xFF, 0x00, 254, 255]));
    input.extend(record(256, &[0x42]));
    input.extend(record(22, &[]));
    let expected = "256 0 4 11074\n256 16 0 0\n256 2 0 0\n22 0 255 11074\n";
    assert_eq!(list(&input), expected);
}

#[test]
fn the_fifth_field_needs_bytes() {
    let mut input = START.to_vec();
    input.extend(record(258, &[252, 0, 0, 0, 0]));
    input.extend(record(20, &[]));
    input.extend(record(24, &[0]));
    input.extend(record(30, &[253, 0, 0, 0, 0x00, 0xE0]));
    assert_eq!(
        list(&input),
        "256 0 4 11074\n258 0 0 0\n20 0 0 5 0200010000\n24 0 253 16384\n30 0 0 2\n"
    );
}

#[test]
fn a_read_at_or_past_the_end_has_no_fifth_field() {
    let mut input = START.to_vec();
    input.extend(record(1, b"\x05\x00\x01\x00VIDEO:"));
    input.extend(record(6, &[5, 0, 0, 0, 1]));
    input.extend(record(6, &[5, 1, 0, 0, 1]));
    input.extend(record(6, &[5, 2, 0, 0, 0]));
    input.extend(record(6, &[5, 0xFF, 0xFF, 0xFF, 0xFF]));
    assert_eq!(
        list(&input),
        "256 0 4 11074\n1 0 0 0\n6 0 0 1 00\n6 0 0 0\n6 0 0 0\n6 0 0 0\n"
    );
}

#[test]
fn the_lent_output_has_4096_bytes() {
    let mut input = START.to_vec();
    input.extend(record(258, &[252, 0, 0, 0x01, 0x10]));
    input.extend(record(258, &[252, 0, 0, 0x00, 0x10]));
    let full = format!("258 0 0 4096 {}\n", "00".repeat(4096));
    assert_eq!(list(&input), format!("256 0 4 11074\n258 13 0 0\n{full}"));
}

#[test]
fn a_read_may_ask_for_more_than_4096_bytes() {
    let mut input = START.to_vec();
    input.extend(record(1, b"\x05\x00\x01\x10VIDEO:"));
    input.extend(record(6, &[5, 0, 0, 0xFF, 0xFF]));
    input.extend(record(6, &[5, 1, 0, 0xFF, 0xFF]));
    let full = format!("6 0 0 4096 {}\n", "00".repeat(4096));
    assert_eq!(
        list(&input),
        format!("256 0 4 11074\n1 0 0 0\n6 13 0 0\n{full}")
    );
}

#[test]
fn bad_lengths_and_cut_records_end_the_listing() {
    assert_eq!(list(&[]), "");
    assert_eq!(list(START), "256 0 4 11074\n");
    for length in [0u16, 1, 4097, 65_535] {
        let mut input = START.to_vec();
        input.extend(length.to_le_bytes());
        input.extend([0; 5000]);
        assert_eq!(list(&input), "256 0 4 11074\nbad\n");
    }
    for cut in 1..START.len() {
        assert_eq!(list(&START[..cut]), "bad\n");
    }
}

#[test]
fn lengths_2_and_4096_are_allowed() {
    let mut input = record(20, &[]);
    assert_eq!(input.len(), 4);
    input.extend(record(20, &[0; 4094]));
    assert_eq!(list(&input), "20 1 0 0\n20 1 0 0\n");
}
