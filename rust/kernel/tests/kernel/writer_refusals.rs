//! When the writer refuses: PAGE for the start or for any item, then RANGE.

use crate::writer::write;
use exos_kernel::{Item, Refusal};
use Item::{Byte, Move, Restore, SetPage, Word};

/// Whether items may be written from a start of page 1. Where they may not, that
/// is PAGE.
fn fits(offset: u16, items: &[Item]) -> bool {
    match write(1, offset, items, 64) {
        Ok(_) => true,
        Err(refusal) => {
            assert_eq!(refusal, Refusal::Page);
            false
        }
    }
}

#[test]
fn starts_in_kind_30s_range() {
    for (page, offset) in [(0, 0), (3, 0), (0, 16_384), (3, 16_384)] {
        assert_eq!(write(page, offset, &[], 1), Ok(vec![0xC0]));
    }
}

#[test]
fn starts_outside_it() {
    for (page, offset) in [(4, 0), (255, 0), (0, 16_385), (0, 65_535), (4, 16_385)] {
        for items in [&[][..], &[Restore], &[Move(0)]] {
            assert_eq!(write(page, offset, items, 64), Err(Refusal::Page));
        }
    }
}

#[test]
fn bytes_at_the_pages_end() {
    assert!(fits(16_383, &[Byte(1)]));
    assert!(!fits(16_384, &[Byte(1)]));
    assert!(fits(16_382, &[Byte(1), Byte(2)]));
    assert!(!fits(16_383, &[Byte(1), Byte(2)]));
}

#[test]
fn words_at_the_pages_end() {
    assert!(fits(16_382, &[Word(1)]));
    assert!(!fits(16_383, &[Word(1)]));
    assert!(!fits(16_384, &[Word(1)]));
    assert!(fits(16_381, &[Byte(1), Word(1)]));
    assert!(!fits(16_381, &[Word(1), Word(1)]));
}

#[test]
fn moves_within_the_page() {
    assert!(fits(0, &[Move(0)]));
    assert!(fits(0, &[Move(16_383)]));
    assert!(fits(16_383, &[Move(0)]));
    assert!(fits(1, &[Move(0xFFFF), Byte(1)]));
    assert!(fits(16_383, &[Move(0xC001)]));
    assert!(fits(16_384, &[Move(0xFFFF), Byte(1)]));
    assert!(fits(16_384, &[Move(0xC000), Byte(1)]));
}

#[test]
fn moves_out_of_the_page() {
    assert!(!fits(0, &[Move(16_384)]));
    assert!(!fits(1, &[Move(16_383)]));
    assert!(!fits(0, &[Move(0xFFFF)]));
    assert!(!fits(16_383, &[Move(0xC000)]));
    assert!(!fits(16_384, &[Move(0)]));
    assert!(!fits(16_384, &[Move(1)]));
    assert!(!fits(16_384, &[Move(0x8000)]));
}

#[test]
fn the_counter_goes_on_from_item_to_item() {
    assert!(!fits(16_383, &[Byte(1), Move(0)]));
    assert!(fits(16_383, &[Byte(1), Move(0xFFFF), Byte(2)]));
    assert!(!fits(16_383, &[Move(0), Word(1)]));
    assert!(fits(16_383, &[Move(0xFFFF), Word(1), SetPage(0), Restore]));
    assert!(!fits(16_383, &[Move(0xFFFF), Word(1), SetPage(0), Byte(1)]));
}

#[test]
fn page_numbers() {
    for page in 0..4 {
        assert!(fits(16_384, &[SetPage(page), Restore]));
    }
    for page in [4, 5, 255, 256, 259, 65_535] {
        assert!(!fits(0, &[SetPage(page)]));
        assert!(!fits(0, &[SetPage(0), Restore, SetPage(page), Byte(1)]));
    }
}

#[test]
fn a_short_buffer() {
    for (items, bytes) in [
        (&[][..], 1),
        (&[Restore], 1),
        (&[Byte(1)], 2),
        (&[Word(1)], 3),
        (&[Byte(1); 8], 10),
        (&[SetPage(1), Move(0), Byte(1)], 5),
    ] {
        for short in 0..bytes {
            assert_eq!(write(0, 0, items, short), Err(Refusal::Range));
        }
        assert_eq!(write(0, 0, items, bytes).unwrap().len(), bytes);
    }
}

#[test]
fn page_goes_before_range() {
    let long = [Byte(1); 8];
    for last in [Move(0x8000), SetPage(4)] {
        let items = [&long[..], &[last]].concat();
        for length in [0, 1, 10, 64] {
            assert_eq!(write(0, 0, &items, length), Err(Refusal::Page));
        }
    }
    for (page, offset) in [(4, 0), (0, 16_385), (0, 16_377)] {
        assert_eq!(write(page, offset, &long, 0), Err(Refusal::Page));
    }
    assert_eq!(write(0, 16_376, &long, 0), Err(Refusal::Range));
}
