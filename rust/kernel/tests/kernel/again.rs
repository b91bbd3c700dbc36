//! Order 13: "Open and close again." The places of a record are found by walking
//! down the chain, segment by segment.

use crate::machine::Machine;
use crate::moves::pattern;
use exos_kernel::{Call, SEGMENT};

/// The channel that is opened and closed again.
const CHANNEL: u8 = 200;

/// "A done open followed at once by that channel's close gives back the same tables
/// and every RAM byte outside that record's positions; those are zero."
fn check(machine: &mut Machine, n: u16, name: &[u8]) {
    let before = machine.clone();
    assert_eq!(machine.open_named(CHANNEL, n, name).0, 0, "{n}");
    let mut ram = before.ram;
    for place in places(machine) {
        ram[place] = 0;
    }
    assert_eq!(machine.close(CHANNEL), (0, 0, 0));
    assert_eq!(machine.tables, before.tables);
    assert!(machine.ram == ram, "{n}");
}

/// The places of the last channel's record.
fn places(machine: &Machine) -> Vec<usize> {
    let tables = &machine.tables;
    let chain = &tables.chain[..tables.chain_length.into()];
    let room = usize::from(tables.r);
    let line = chain.iter().enumerate().flat_map(|(link, &row)| {
        let end = if link == 0 { room } else { SEGMENT };
        let start = usize::from(row) * SEGMENT;
        (start..start + end).rev()
    });
    let channels = &tables.channels[..tables.channel_count.into()];
    let lengths: Vec<_> = channels.iter().map(|row| 16 + usize::from(row.n)).collect();
    let (last, earlier) = lengths.split_last().unwrap();
    line.skip(earlier.iter().sum()).take(*last).collect()
}

/// Each n around the least and the most that there is room for.
fn check_up_to(machine: &mut Machine, most: u16) {
    for n in [0, 1, most / 2, most - 1, most] {
        for name in [&b"VIDEO:"[..], b"net-255:", b"Keyboard7:a.b"] {
            check(machine, n, name);
        }
    }
    assert_eq!(machine.open(CHANNEL, most + 1), (9, 0, 0));
}

#[test]
fn with_no_channel_and_with_others() {
    let mut machine = Machine::standard();
    for n in [11_057, 11_058, 11_059, 27_442, 27_443] {
        check(&mut machine, n, b"VIDEO:");
    }
    check_up_to(&mut machine, 43_826);
    // lines that end within 255, just above its edge, and in 254
    for (number, n, most) in [(0, 4_984, 38_826), (1, 6_052, 32_758), (2, 84, 32_658)] {
        machine.open(number, n);
        machine.write(number, 0, &pattern(n.into(), number.into()));
        check_up_to(&mut machine, most);
    }
    machine.close(1);
    check_up_to(&mut machine, 38_726);
}

#[test]
fn with_the_longest_buffer() {
    let mut machine = Machine::start(256, &[249, 250, 251, 252, 253, 255]);
    check(&mut machine, 65_535, b"VIDEO:");
    machine.open(0, 0);
    check(&mut machine, 65_535, b"VIDEO:");
}

#[test]
fn in_the_last_row() {
    let mut machine = Machine::standard();
    for number in 0..31 {
        machine.open(number, 3);
        machine.write(number, 0, &pattern(3, number.into()));
    }
    check_up_to(&mut machine, 43_237);
}

#[test]
fn on_segments_that_the_user_stored_to() {
    let mut machine = Machine::standard();
    for segment in [253, 254] {
        machine.allocate(0);
        machine.store(segment, 0, &[9; SEGMENT]);
    }
    machine.free(0, 253);
    machine.free(0, 254);
    check_up_to(&mut machine, 43_826);
}

#[test]
fn with_255_shared() {
    let mut machine = Machine::standard();
    for answer in [(0, 253, 16_384), (0, 254, 16_384), (17, 255, 11_074)] {
        assert_eq!(machine.allocate(0), answer);
    }
    machine.store(255, 0, &[9; 11_074]);
    machine.set_boundary(1_000);
    check_up_to(&mut machine, 10_058);
    // "even if a free segment exists"
    machine.free(0, 254);
    check_up_to(&mut machine, 10_058);
}

#[test]
fn with_another_segment_shared() {
    let mut machine = Machine::standard();
    machine.open(0, 11_058);
    machine.open(1, 0);
    machine.allocate(0);
    assert_eq!(machine.allocate(0), (17, 254, 16_368));
    machine.store(254, 0, &[9; 16_368]);
    machine.set_boundary(9_000);
    check_up_to(&mut machine, 7_352);
}

#[test]
fn with_a_lower_r_a_new_device_and_the_default_name() {
    let mut machine = Machine::standard();
    machine.link(100, b"DISK");
    let name = b"disk";
    machine.call(Call::Default { unit: 7, name });
    check_up_to(&mut machine, 43_726);
    for name in [&b"DISK-5:"[..], b"", b":", b"-3:", b"9:a.b", b"a.b"] {
        check(&mut machine, 12_000, name);
    }
}
