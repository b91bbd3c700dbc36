//! When a module is refused: before all items, then by the first at fault.

use crate::machine::{Answer, Machine};
use crate::modules::with_user_segment;
use exos_kernel::decode;
use exos_modules::{byte, move_by, set_page, stream, word, Item, END, ILLEGAL};

const MODULE: Answer = (19, 0, 0);
const PAGE: Answer = (20, 0, 0);
const RANGE: Answer = (13, 0, 0);
const GUARD: Answer = (14, 0, 0);

/// An empty module.
const EMPTY: &[u8] = &[0xC0];

/// The answer to items and the end item, loaded into a segment.
fn load(machine: &mut Machine, segment: u8, offset: u16, items: &[Item]) -> Answer {
    let stream = stream(&[items, &[END]].concat());
    machine.load_module(segment, 1, offset, &stream)
}

/// A machine whose segment 255 is shared, with this user boundary.
fn with_boundary(value: u16) -> Machine {
    let mut machine = Machine::standard();
    for _ in 0..3 {
        machine.allocate(0);
    }
    assert_eq!(machine.set_boundary(value), (0, 0, 0));
    machine
}

#[test]
fn number_1_tables() {
    let mut machine = with_user_segment();
    machine.ram.pop();
    assert_eq!(machine.load_module(253, 0, 0, EMPTY), (1, 0, 0));
    machine.ram.push(0);
    assert_eq!(machine.load_module(253, 0, 0, EMPTY), (0, 0, 1));
    machine.tables.r = 0;
    assert_eq!(machine.load_module(9, 9, 65_535, &[]), (1, 0, 0));
}

#[test]
fn number_2_call() {
    let mut machine = with_user_segment();
    for page in 0..=255 {
        let expected = if page < 4 { (0, 0, 1) } else { (2, 0, 0) };
        assert_eq!(machine.load_module(253, page, 0, EMPTY), expected);
    }
    for (offset, expected) in [
        (16_384, (0, 0, 1)),
        (16_385, (2, 0, 0)),
        (65_535, (2, 0, 0)),
    ] {
        assert_eq!(machine.load_module(253, 3, offset, EMPTY), expected);
    }
    for length in 0..4 {
        let short = &[253, 0, 0, 0][..length];
        assert_eq!(machine.call(decode(30, short)), (2, 0, 0));
    }
    assert_eq!(machine.call(decode(30, &[253, 0, 0, 0])), MODULE);
    assert_eq!(machine.load_module(9, 4, 0, &[]), (2, 0, 0));
}

#[test]
fn number_11_owner() {
    let mut machine = Machine::standard();
    machine.allocate(1);
    for segment in [0, 7, 251, 253, 254, 255] {
        for stream in [EMPTY, &[], &[0xFF], &[0x00, 0xE0]] {
            let answer = machine.load_module(segment, 0, 16_384, stream);
            assert_eq!(answer, (11, 0, 0));
        }
    }
}

#[test]
fn number_20_a_store() {
    let mut machine = with_user_segment();
    for segment in [252, 253] {
        assert_eq!(load(&mut machine, segment, 16_384, &[byte(1)]), PAGE);
        assert_eq!(load(&mut machine, segment, 16_383, &[byte(1)]).0, 0);
        assert_eq!(load(&mut machine, segment, 16_383, &[byte(1); 2]), PAGE);
        assert_eq!(load(&mut machine, segment, 16_384, &[word(1)]), PAGE);
        assert_eq!(load(&mut machine, segment, 16_383, &[word(1)]), PAGE);
        assert_eq!(load(&mut machine, segment, 16_382, &[word(1)]).0, 0);
        assert_eq!(load(&mut machine, segment, 16_382, &[word(1); 2]), PAGE);
    }
}

#[test]
fn number_20_a_move() {
    let mut machine = with_user_segment();
    for from in [0, 1, 5, 16_383, 16_384] {
        for to in [0, 1, 16_383, 16_384, 16_385, 32_768, 49_152, 65_535] {
            let by = u16::wrapping_sub(to, from);
            let done = to < 16_384;
            let answer = load(&mut machine, 253, from, &[move_by(by)]);
            assert_eq!(answer.0, if done { 0 } else { 20 }, "{from} {to}");
        }
    }
}

#[test]
fn number_20_a_move_in_every_page() {
    let mut machine = with_user_segment();
    for (page, run_page) in (0..16).map(|both| (both / 4, both % 4)) {
        for by in [0x4000, 0x8000, 0xC000, 0xFFFF] {
            let stream = stream(&[set_page(run_page), move_by(by), END]);
            assert_eq!(machine.load_module(253, page, 0, &stream), PAGE);
        }
    }
}

#[test]
fn number_13_range() {
    let mut machine = with_boundary(1_000);
    for offset in [1_000, 1_001, 16_383] {
        assert_eq!(load(&mut machine, 255, offset, &[byte(1)]), RANGE);
    }
    assert_eq!(load(&mut machine, 255, 999, &[byte(1)]).0, 0);
    assert_eq!(load(&mut machine, 255, 999, &[byte(1); 2]), RANGE);
    assert_eq!(load(&mut machine, 255, 998, &[word(1)]).0, 0);
    assert_eq!(load(&mut machine, 255, 999, &[word(1)]), RANGE);
    assert_eq!(load(&mut machine, 255, 16_382, &[word(1)]), RANGE);
    let mut machine = with_boundary(0);
    assert_eq!(load(&mut machine, 255, 0, &[]), (0, 0, 1));
    assert_eq!(load(&mut machine, 255, 0, &[byte(1)]), RANGE);
}

#[test]
fn no_range_for_a_start_or_a_move() {
    let mut machine = with_boundary(1_000);
    for offset in [1_000, 1_001, 16_383, 16_384] {
        assert_eq!(load(&mut machine, 255, offset, &[]), (0, 0, 1));
        let back = move_by(0_u16.wrapping_sub(offset));
        assert_eq!(load(&mut machine, 255, offset, &[back, byte(1)]).0, 0);
    }
    for to in [1_000, 1_001, 16_383] {
        assert_eq!(load(&mut machine, 255, 0, &[move_by(to)]).0, 0);
    }
}

#[test]
fn number_14_guard_of_each_byte_and_word() {
    let mut machine = with_user_segment();
    let guarded = |at: u16| (0x30..=0x5B).contains(&at) && at != 0x3D && at != 0x3E;
    for offset in 0..0x100 {
        let expected = |fault| if fault { GUARD } else { (0, 0, 2) };
        let answer = load(&mut machine, 252, offset, &[byte(1)]);
        assert_eq!(answer, expected(guarded(offset)), "byte {offset:x}");
        let expected = |fault| if fault { GUARD } else { (0, 0, 3) };
        let answer = load(&mut machine, 252, offset, &[word(1)]);
        let fault = guarded(offset) || guarded(offset + 1);
        assert_eq!(answer, expected(fault), "word {offset:x}");
        assert_eq!(load(&mut machine, 253, offset, &[word(1)]).0, 0);
    }
}

#[test]
fn no_guard_for_a_start_or_a_move() {
    let mut machine = with_user_segment();
    let across = [byte(1), move_by(0x2C), byte(2)];
    assert_eq!(load(&mut machine, 252, 0x2F, &across).0, 0);
    assert_eq!(machine.segment(252)[0x2F], 1);
    assert_eq!(machine.segment(252)[0x5C], 2);
    assert_eq!(load(&mut machine, 252, 0x40, &[]), (0, 0, 1));
}

#[test]
fn at_one_item_module_then_page_then_range_or_guard() {
    let mut shared = with_boundary(1_000);
    assert_eq!(load(&mut shared, 255, 16_383, &[word(1)]), PAGE);
    assert_eq!(load(&mut shared, 255, 16_384, &[byte(1)]), PAGE);
    let cut = &stream(&[byte(1)])[..1];
    for (segment, offset) in [(253, 16_384), (252, 0x30), (255, 1_000), (255, 16_384)] {
        assert_eq!(shared.load_module(segment, 0, offset, cut), MODULE);
    }
}

#[test]
fn the_first_item_at_fault_decides() {
    let mut machine = with_boundary(1_000);
    let past = move_by(0x4000);
    let (to_guard, to_boundary) = (move_by(0xFF30), move_by(1_000 - 0x100));
    let steps: [(u8, &[Item], Answer); 7] = [
        (253, &[past, ILLEGAL], PAGE),
        (252, &[to_guard, byte(1), ILLEGAL], GUARD),
        (252, &[to_guard, byte(1), past], GUARD),
        (252, &[past, to_guard, byte(1)], PAGE),
        (255, &[to_boundary, byte(1), ILLEGAL], RANGE),
        (255, &[to_boundary, byte(1), past], RANGE),
        (255, &[past, to_boundary, byte(1)], PAGE),
    ];
    for (segment, items, expected) in steps {
        assert_eq!(load(&mut machine, segment, 0x100, items), expected);
    }
}

#[test]
fn no_byte_is_stored_before_a_later_fault() {
    let mut machine = with_boundary(1_000);
    machine.ram.fill(0x5A);
    for (segment, fault, expected) in [
        (253, ILLEGAL, MODULE),
        (253, move_by(0x8000), PAGE),
        (252, byte(2), GUARD),
        (255, byte(2), RANGE),
    ] {
        let offset = if segment == 255 { 998 } else { 0x2E };
        let items = [byte(1), byte(1), fault];
        assert_eq!(load(&mut machine, segment, offset, &items), expected);
        assert!(machine.ram.iter().all(|&byte| byte == 0x5A));
    }
    let unpadded = [0x00, 0xE1];
    assert_eq!(machine.load_module(253, 0, 0, &unpadded), MODULE);
    assert!(machine.ram.iter().all(|&byte| byte == 0x5A));
}
