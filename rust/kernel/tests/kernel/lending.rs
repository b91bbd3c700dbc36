//! "A buffer's bytes are lent on, for reading only, as that part of the RAM
//! and nothing else where they lie in one segment."

use crate::machine::Machine;
use exos_kernel::{lend, Lent, SEGMENT};

#[test]
fn a_buffer_in_one_segment_is_lent_in_ram_order() {
    let mut machine = Machine::standard();
    machine.open(1, 3);
    machine.write(1, 0, &[1, 2, 3]);
    let start = 3 * SEGMENT + 11_074 - 16 - 3;
    let bytes = &[3, 2, 1][..];
    let lent = lend(&machine.tables, &machine.ram, 1);
    assert_eq!(lent, Lent::Part { start, bytes });
}

#[test]
fn up_to_the_segment_edge_and_over_it() {
    for (n, whole) in [(11_058, true), (11_059, false)] {
        let mut machine = Machine::standard();
        machine.open(1, n);
        let lent = lend(&machine.tables, &machine.ram, 1);
        assert_eq!(matches!(lent, Lent::Part { .. }), whole);
        assert_eq!(lent == Lent::Split, !whole);
    }
}

#[test]
fn a_buffer_just_after_the_edge_is_whole() {
    let mut machine = Machine::standard();
    machine.open(1, 11_042);
    machine.open(2, 16_384);
    let lent = lend(&machine.tables, &machine.ram, 2);
    let bytes = &[0; SEGMENT][..];
    let start = 2 * SEGMENT;
    assert_eq!(lent, Lent::Part { start, bytes });
}

#[test]
fn nothing_to_lend() {
    let mut machine = Machine::standard();
    machine.open(1, 0);
    assert_eq!(lend(&machine.tables, &machine.ram, 1), Lent::Empty);
    assert_eq!(lend(&machine.tables, &machine.ram, 2), Lent::NotOpen);
    assert_eq!(lend(&machine.tables, &machine.ram, 255), Lent::NotOpen);
    assert_eq!(lend(&machine.tables, &[], 1), Lent::BadTables);
    machine.tables.r = 0;
    assert_eq!(lend(&machine.tables, &machine.ram, 1), Lent::BadTables);
}
