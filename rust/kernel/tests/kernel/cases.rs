//! "Either side of the line": the ten cases, "each from a fresh start".

use crate::machine::Machine;
use exos_kernel::class;

#[test]
fn case_1_fills_the_system_segment() {
    let mut machine = Machine::standard();
    assert_eq!(machine.open(0, 11_058), (0, 0, 0));
    assert_eq!(machine.boundary(), (0, 255, 0));
}

#[test]
fn case_2_goes_one_byte_over() {
    let mut machine = Machine::standard();
    assert_eq!(machine.open(0, 11_059), (0, 0, 0));
    assert_eq!(machine.boundary(), (0, 254, 16_383));
}

#[test]
fn case_3_fills_all_there_is() {
    let mut machine = Machine::standard();
    assert_eq!(machine.open(0, 43_826), (0, 0, 0));
    assert_eq!(machine.boundary(), (0, 253, 0));
}

#[test]
fn case_4_asks_one_byte_too_many() {
    assert_eq!(Machine::standard().open(0, 43_827), (9, 0, 0));
}

#[test]
fn case_5_allocates_four_times() {
    let mut machine = Machine::standard();
    assert_eq!(machine.allocate(0), (0, 253, 16_384));
    assert_eq!(machine.allocate(0), (0, 254, 16_384));
    assert_eq!(machine.allocate(0), (17, 255, 11_074));
    assert_eq!(machine.allocate(0), (10, 0, 0));
}

fn after_three() -> Machine {
    let mut machine = Machine::standard();
    for _ in 0..3 {
        machine.allocate(0);
    }
    machine
}

#[test]
fn case_6_sets_the_boundary_too_high() {
    let mut machine = after_three();
    assert_eq!(machine.set_boundary(11_075), (12, 0, 0));
    assert_eq!(machine.set_boundary(11_074), (0, 0, 0));
}

#[test]
fn case_7_opens_down_to_the_user_boundary() {
    let mut machine = after_three();
    assert_eq!(machine.set_boundary(11_058), (0, 0, 0));
    assert_eq!(machine.open(0, 0), (0, 0, 0));
    assert_eq!(machine.boundary(), (0, 255, 11_058));
}

#[test]
fn case_8_opens_one_byte_below_it() {
    let mut machine = after_three();
    assert_eq!(machine.set_boundary(11_058), (0, 0, 0));
    assert_eq!(machine.open(0, 1), (9, 0, 0));
}

#[test]
fn case_9_a_shared_segment_given_up_becomes_user() {
    let mut machine = Machine::standard();
    assert_eq!(machine.open(0, 11_058), (0, 0, 0));
    assert_eq!(machine.open(1, 0), (0, 0, 0));
    assert_eq!(machine.allocate(0), (0, 253, 16_384));
    assert_eq!(machine.allocate(0), (17, 254, 16_368));
    assert_eq!(machine.close(1), (0, 0, 0));
    assert_eq!(machine.class(254), class::USER);
    assert_eq!(machine.tables.user_boundary, 0);
    assert_eq!(machine.status(), [0, 2, 1, 0, 0]);
}

#[test]
fn case_10_names() {
    let mut machine = Machine::standard();
    assert_eq!(machine.open_named(0, 0, b"-3:"), (6, 0, 0));
    assert_eq!(machine.open_named(0, 0, b"NET-:"), (5, 0, 0));
    assert_eq!(machine.open_named(0, 0, b"net07:"), (0, 1, 7));
}
