//! "Store touches page zero 30h to 5Bh, save 3Dh and 3Eh."

use crate::machine::Machine;

#[test]
fn every_single_byte() {
    let mut machine = Machine::standard();
    for offset in 0..0x100u16 {
        let guarded = (0x30..=0x5B).contains(&offset) && offset != 0x3D && offset != 0x3E;
        let number = if guarded { 14 } else { 0 };
        assert_eq!(machine.store(252, offset, &[1]).0, number, "{offset:x}");
    }
}

#[test]
fn stores_that_reach_over() {
    let mut machine = Machine::standard();
    assert_eq!(machine.store(252, 0x2E, &[1; 2]), (0, 0, 2));
    assert_eq!(machine.store(252, 0x2E, &[1; 3]), (14, 0, 0));
    assert_eq!(machine.store(252, 0x3C, &[1; 2]), (14, 0, 0));
    assert_eq!(machine.store(252, 0x3D, &[1; 2]), (0, 0, 2));
    assert_eq!(machine.store(252, 0x3D, &[1; 3]), (14, 0, 0));
    assert_eq!(machine.store(252, 0, &[1; 0x1000]), (14, 0, 0));
    assert_eq!(machine.store(252, 0x5C, &[1; 0x1000]), (0, 0, 0x1000));
}

#[test]
fn no_bytes_touch_nothing() {
    let mut machine = Machine::standard();
    for offset in [0x30, 0x31, 0x3F, 0x40, 0x5B] {
        assert_eq!(machine.store(252, offset, &[]), (0, 0, 0));
    }
}

#[test]
fn only_page_zero_and_only_stores_are_guarded() {
    let mut machine = Machine::standard();
    machine.allocate(0);
    assert_eq!(machine.store(253, 0x30, &[1; 44]), (0, 0, 44));
    assert_eq!(machine.load(252, 0x30, 44), (0, 0, 44));
}

#[test]
fn range_wins_over_guard() {
    let mut machine = Machine::standard();
    assert_eq!(machine.store(252, 0x30, &[1; 16_384]), (13, 0, 0));
    assert_eq!(machine.store(252, 0x30, &[1; 16_384 - 0x30]), (14, 0, 0));
}
