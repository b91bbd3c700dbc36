//! Start and each combination of the reset flags.

use crate::machine::Machine;
use exos_kernel::{class, Call, SEGMENT};

/// Two channels over 255 and 254, 253 a device's, 252 the user's, 254 shared,
/// a linked VIDEO, a default, and marks on bytes that nobody may change.
fn busy() -> Machine {
    let mut machine = Machine::start(1_000, &[251, 252, 253, 254, 255]);
    machine.link(100, b"VIDEO");
    machine.call(Call::Default {
        unit: 4,
        name: b"NET",
    });
    machine.open(1, 500);
    machine.open(2, 1_000);
    machine.write(1, 0, &[0x11; 500]);
    machine.write(2, 0, &[0x22; 1_000]);
    assert_eq!(machine.allocate(0), (0, 252, 16_384));
    assert_eq!(machine.allocate(1), (0, 253, 16_384));
    let boundary = 16_384 - 632;
    assert_eq!(machine.allocate(0), (17, 254, boundary));
    assert_eq!(machine.set_boundary(1_000), (0, 0, 0));
    for segment in [251, 252, 254] {
        assert_eq!(machine.store(segment, 0x100, &[0x33; 700]), (0, 0, 700));
    }
    machine.segment(254)[2_000] = 0x44;
    machine.segment(255)[950] = 0x55;
    machine.segment(255)[1_000] = 0x66;
    machine
}

/// The marks that no reset may touch.
fn check_marks(machine: &mut Machine) {
    for segment in [251, 252, 254] {
        assert_eq!(machine.segment(segment)[0x100..0x100 + 700], [0x33; 700]);
    }
    assert_eq!(machine.segment(254)[2_000], 0x44);
    assert_eq!(machine.segment(255)[1_000], 0x66);
    assert_eq!(machine.segment(253), [0; SEGMENT]);
    assert_eq!(machine.tables.default.length, 3);
    assert_eq!(machine.tables.default.unit, 4);
}

/// Closed: no channel, the line's places zero, the chain 255 alone.
fn check_closed(machine: &mut Machine) {
    assert_eq!(machine.tables.channel_count, 0);
    assert_eq!(machine.chain(), [255]);
    assert_eq!(machine.segment(255)[..900], [0; 900]);
    assert!(machine.segment(254)[2_001..].iter().all(|&byte| byte == 0));
    assert_eq!(machine.tables.user_boundary, 0);
}

fn check_relinked(machine: &mut Machine, relinked: bool) {
    let (devices, r, byte) = if relinked {
        (3, 1_000, 0)
    } else {
        (4, 900, 0x55)
    };
    assert_eq!(machine.tables.device_count, devices);
    assert_eq!(machine.tables.r, r);
    assert_eq!(machine.segment(255)[950], byte);
    assert_eq!(machine.tables.devices[0].enabled, relinked);
}

#[test]
fn no_flag_does_nothing() {
    let mut machine = busy();
    let before = machine.clone();
    assert_eq!(machine.reset(0), (0, 0, 0));
    assert_eq!(machine.tables, before.tables);
    assert!(machine.ram == before.ram);
}

/// Closes with the flags besides, by bit 4, by bit 5 and by both.
fn check_closing(besides: u8, status: [u8; 5]) {
    for (flags, relinked) in [(0x10, false), (0x20, true), (0x30, true)] {
        let mut machine = busy();
        assert_eq!(machine.reset(flags | besides), (0, 0, 0));
        check_marks(&mut machine);
        check_closed(&mut machine);
        check_relinked(&mut machine, relinked);
        assert_eq!(machine.status(), status);
    }
}

#[test]
fn closing_makes_the_shared_segment_the_users() {
    check_closing(0, [0, 2, 1, 1, 0]);
}

#[test]
fn closing_and_releasing_frees_it() {
    check_closing(0x40, [2, 0, 1, 1, 0]);
}

#[test]
fn releasing_alone_ends_sharing() {
    let mut machine = busy();
    let before = machine.clone();
    assert_eq!(machine.reset(0x40), (0, 0, 0));
    assert!(machine.ram == before.ram);
    assert_eq!(machine.class(254), class::SYSTEM);
    assert_eq!(machine.class(252), class::FREE);
    assert_eq!(machine.tables.user_boundary, 0);
    assert_eq!(machine.status(), [1, 0, 2, 1, 0]);
    check_relinked(&mut machine, false);
}

#[test]
fn a_shared_255_stays_shared_until_released() {
    for flags in [0x10, 0x20, 0x30] {
        let mut machine = Machine::start(1_000, &[254, 255]);
        machine.link(100, b"AB");
        machine.open(1, 84);
        assert_eq!(machine.allocate(0), (17, 255, 800));
        machine.store(255, 700, &[7; 100]);
        machine.reset(flags);
        assert_eq!(machine.class(255), class::SHARED);
        assert_eq!(machine.tables.user_boundary, 800);
        assert_eq!(machine.segment(255)[700..800], [7; 100]);
        let r = if flags == 0x10 { 900 } else { 1_000 };
        assert_eq!(machine.boundary(), (0, 255, r));
        machine.reset(flags | 0x40);
        assert_eq!(machine.class(255), class::SYSTEM);
        assert_eq!(machine.tables.user_boundary, 0);
        assert_eq!(machine.segment(255)[700..800], [7; 100]);
    }
}

#[test]
fn relinking_enables_a_disabled_built_in_device() {
    let mut machine = Machine::standard();
    for name in [&b"VIDEO"[..], b"NET", b"KEYBOARD", b"OTHER"] {
        machine.link(1_000, name);
    }
    assert_eq!(machine.tables.r, 7_074);
    machine.reset(0x20);
    assert_eq!(machine.tables, Machine::standard().tables);
}

#[test]
fn start_forgets_all_that_was() {
    let mut machine = busy();
    let list = [251, 252, 253, 254, 255];
    let answer = machine.call(Call::Start {
        r: 256,
        list: &list,
    });
    assert_eq!(answer, (0, 5, 256));
    assert!(machine.ram.iter().all(|&byte| byte == 0));
    assert_eq!(machine.status(), [3, 0, 1, 0, 0]);
    assert_eq!(machine.tables, Machine::start(256, &list).tables);
}
