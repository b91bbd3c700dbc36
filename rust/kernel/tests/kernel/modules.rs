//! What a module that is loaded leaves: its bytes where the counter stands.

use crate::machine::Machine;
use exos_modules::{byte, move_by, set_page, stream, word, Item, END, RESTORE};

/// A machine whose segment 253 is the user's.
pub fn with_user_segment() -> Machine {
    let mut machine = Machine::standard();
    assert_eq!(machine.allocate(0), (0, 253, 16_384));
    machine
}

/// The bytes of 253 at `offset` after items and the end item are loaded from
/// there on.
fn loaded<const N: usize>(page: u8, offset: u16, items: &[Item]) -> [u8; N] {
    let mut machine = with_user_segment();
    let stream = stream(&[items, &[END]].concat());
    let done = (0, 0, stream.len() as u16);
    assert_eq!(machine.load_module(253, page, offset, &stream), done);
    let at = usize::from(offset);
    machine.segment(253)[at..at + N].try_into().unwrap()
}

/// The word that a word of zeros becomes.
fn relocated(page: u8, offset: u16, items: &[Item]) -> u16 {
    u16::from_le_bytes(loaded(page, offset, &[items, &[word(0)]].concat()))
}

#[test]
fn the_examples_to_the_bit() {
    let mut machine = with_user_segment();
    let load = |machine: &mut Machine, stream: &[u8]| machine.load_module(253, 1, 0x100, stream);
    assert_eq!(load(&mut machine, &[0xC0]), (0, 0, 1));
    assert_eq!(load(&mut machine, &[0xA7, 0x80]), (0, 0, 2));
    assert_eq!(load(&mut machine, &[0xAE]), (0, 0, 1));
    assert!(machine.ram.iter().all(|&byte| byte == 0));
    assert_eq!(load(&mut machine, &[0x00, 0xE0]), (0, 0, 2));
    assert_eq!(machine.segment(253)[0x100..0x102], [0x01, 0]);
    assert_eq!(load(&mut machine, &[0x82, 0x46, 0x98]), (0, 0, 3));
    assert_eq!(machine.segment(253)[0x100..0x103], [0x34, 0x53, 0]);
    assert_eq!(load(&mut machine, &[0xB4, 0x00, 0x0C]), (20, 0, 0));
}

#[test]
fn a_byte_adds_1_and_a_word_2() {
    let items = [byte(0xAA), word(0x1000), byte(0xBB), word(0xFFFF)];
    assert_eq!(loaded(0, 0, &items), [0xAA, 0x01, 0x10, 0xBB, 0x03, 0x00]);
}

#[test]
fn relocation_adds_the_counter_before_the_store() {
    for page in 0..4 {
        for offset in [0, 1, 0x1234, 16_382] {
            let value = u16::from(page) * 16_384 + offset;
            assert_eq!(relocated(page, offset, &[]), value);
        }
    }
}

#[test]
fn relocation_drops_the_carry() {
    assert_eq!(loaded(3, 0x3FF0, &[word(0x0010)]), [0x00, 0x00]);
    assert_eq!(loaded(3, 0x3FF0, &[word(0xFFFF)]), [0xEF, 0xFF]);
    assert_eq!(loaded(3, 0, &[word(0x4001)]), [0x01, 0x00]);
    assert_eq!(loaded(0, 1, &[word(0xFFFF)]), [0x00, 0x00]);
}

#[test]
fn set_page_changes_values_and_no_place() {
    for page in 0..4 {
        let value = u16::from(page) * 16_384 + 7;
        assert_eq!(relocated(2, 7, &[set_page(page)]), value);
    }
    let items = [set_page(3), byte(1), set_page(0), byte(2)];
    assert_eq!(loaded(1, 9, &items), [1, 2, 0]);
}

#[test]
fn restore_goes_back_to_the_start_page() {
    let start = 2 * 16_384 + 7;
    assert_eq!(relocated(2, 7, &[RESTORE]), start);
    let items = [set_page(3), set_page(1), RESTORE];
    assert_eq!(relocated(2, 7, &items), start);
    let items = [set_page(3), RESTORE, set_page(1), RESTORE, RESTORE];
    assert_eq!(relocated(2, 7, &items), start);
    let items = [RESTORE, set_page(1)];
    assert_eq!(relocated(2, 7, &items), 16_384 + 7);
}

#[test]
fn moves_add_to_the_offset() {
    let items = [byte(1), move_by(3), byte(2), move_by(0xFFFD), byte(3)];
    assert_eq!(loaded(0, 100, &items), [1, 0, 3, 0, 2, 0]);
    assert_eq!(loaded(3, 100, &[move_by(0), byte(1)]), [1, 0]);
    let there = word(16_384_u16.wrapping_neg());
    let mut machine = with_user_segment();
    let stream = stream(&[move_by(16_382 - 100), set_page(1), there, END]);
    assert_eq!(machine.load_module(253, 0, 100, &stream).0, 0);
    assert_eq!(machine.segment(253)[16_382..], [0xFE, 0x3F]);
}

#[test]
fn moves_reach_both_ends_of_the_page() {
    for (from, to) in [
        (0, 0),
        (0, 16_383),
        (16_383, 0),
        (16_384, 0),
        (16_384, 16_383),
    ] {
        for page in 0..4 {
            let mut machine = with_user_segment();
            let by = u16::wrapping_sub(to, from);
            let stream = stream(&[move_by(by), byte(0x77), END]);
            assert_eq!(machine.load_module(253, page, from, &stream).0, 0);
            assert_eq!(machine.segment(253)[usize::from(to)], 0x77);
        }
    }
}

#[test]
fn stores_up_to_the_end_of_the_page() {
    assert_eq!(loaded(0, 16_383, &[byte(5)]), [5]);
    assert_eq!(loaded(0, 16_382, &[word(5)]), [0x03, 0x40]);
    assert_eq!(loaded(0, 16_382, &[byte(5), byte(6)]), [5, 6]);
    let past = [byte(5), set_page(2), RESTORE];
    assert_eq!(loaded(3, 16_383, &past), [5]);
    assert_eq!(loaded(3, 16_384, &[set_page(2), RESTORE]), []);
}

#[test]
fn of_two_stores_to_one_place_the_later_stands() {
    let back = move_by(0xFFFF);
    assert_eq!(loaded(0, 9, &[byte(1), back, byte(2)]), [2, 0]);
    let items = [word(0x1111), back, word(0x2222), move_by(0xFFFD), byte(3)];
    assert_eq!(loaded(0, 9, &items), [3, 0x2C, 0x22, 0]);
}

#[test]
fn nothing_else_changes() {
    let mut machine = with_user_segment();
    machine.ram.fill(0x5A);
    let before = machine.clone();
    let stream = stream(&[byte(1), move_by(1), word(2), move_by(1), END]);
    assert_eq!(machine.load_module(253, 0, 0x200, &stream).0, 0);
    assert_eq!(machine.tables, before.tables);
    let mut expected = before.ram;
    let at = 16_384 + 0x200;
    expected[at..at + 4].copy_from_slice(&[1, 0x5A, 0x04, 0x02]);
    assert!(machine.ram == expected);
}

#[test]
fn what_follows_the_module_is_not_looked_at() {
    let mut machine = with_user_segment();
    assert_eq!(machine.load_module(253, 0, 0, &[0xC0, 0xFF]), (0, 0, 1));
    let mut stream = stream(&[byte(1), END]);
    stream.extend([0xFF; 4_000]);
    assert_eq!(machine.load_module(253, 0, 0, &stream), (0, 0, 2));
}

#[test]
fn page_zero_and_a_shared_segment_take_modules() {
    let mut machine = Machine::standard();
    for _ in 0..3 {
        machine.allocate(0);
    }
    for (segment, offset) in [(252, 0), (252, 0x5C), (254, 0x30), (255, 11_073)] {
        assert_eq!(machine.load_module(segment, 0, offset, &[0x00, 0xE0]).0, 0);
        assert_eq!(machine.segment(segment)[usize::from(offset)], 1);
    }
}

#[test]
fn a_stream_of_65535_bytes_and_more() {
    let mut machine = with_user_segment();
    let mut items = vec![RESTORE; (65_534 * 8 - 7) / 5];
    items.extend([set_page(1), END]);
    let mut longest = stream(&items);
    assert_eq!(longest.len(), 65_535);
    assert_eq!(machine.load_module(253, 0, 0, &longest), (0, 0, 65_535));
    longest.extend([0xFF; 10]);
    assert_eq!(machine.load_module(253, 0, 0, &longest), (0, 0, 65_535));
    items.splice(0..0, [RESTORE; 8]);
    let longer = stream(&items);
    assert_eq!(machine.load_module(253, 0, 0, &longer), (19, 0, 0));
}
