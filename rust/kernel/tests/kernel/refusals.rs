//! Each refusal on both sides of its edge, and which of several wins.

use crate::machine::Machine;
use exos_kernel::{call, class, decode, Call, Refusal, Reply, Tables, SEGMENT};

#[test]
fn number_1_tables() {
    let machine = Machine::standard();
    for length in [0, 1, 4 * SEGMENT - 1, 4 * SEGMENT + 1, 5 * SEGMENT] {
        let mut other = machine.clone();
        other.ram.resize(length, 0);
        for request in [Call::Unknown { kind: 2 }, Call::Boundary, Call::Status] {
            assert_eq!(other.call(request), (1, 0, 0));
        }
    }
    let mut other = machine.clone();
    other.tables.cold_r = other.tables.r - 1;
    assert_eq!(other.call(Call::Unknown { kind: 2 }), (1, 0, 0));
    other.tables.cold_r = other.tables.r;
    assert_eq!(other.call(Call::Unknown { kind: 2 }), (2, 0, 0));
}

#[test]
fn number_2_for_a_short_start_on_any_tables() {
    let mut machine = Machine::standard();
    for body in [&[][..], &[0x42]] {
        assert_eq!(machine.call(decode(256, body)), (2, 0, 0));
    }
    machine.tables.r = 0;
    for body in [&[][..], &[0x42]] {
        assert_eq!(machine.call(decode(256, body)), (2, 0, 0));
    }
    assert_eq!(machine.call(decode(256, &[0x42, 0x2B])), (16, 0, 0));
    assert_eq!(machine.call(decode(255, &[])), (1, 0, 0));
}

#[test]
fn number_2_call() {
    let mut machine = Machine::standard();
    assert_eq!(machine.call(decode(2, &[])), (2, 0, 0));
    assert_eq!(machine.call(decode(22, &[0])), (2, 0, 0));
    assert_eq!(machine.call(decode(22, &[])), (0, 255, 11_074));
    for caller in 2..=255 {
        assert_eq!(machine.allocate(caller), (2, 0, 0));
        assert_eq!(machine.free(caller, 253), (2, 0, 0));
    }
    assert_eq!(machine.allocate(1), (0, 253, 16_384));
    assert_eq!(machine.free(1, 253), (0, 0, 0));
}

#[test]
fn number_3_channel() {
    let mut machine = Machine::standard();
    assert_eq!(machine.open(255, 1), (3, 0, 0));
    assert_eq!(machine.open(254, 1), (0, 0, 0));
    for channel in [0, 253, 255] {
        assert_eq!(machine.close(channel), (3, 0, 0));
        assert_eq!(machine.read(channel, 9, 9), (3, 0, 0));
        assert_eq!(machine.write(channel, 9, &[9]), (3, 0, 0));
    }
    assert_eq!(machine.read(254, 0, 1), (0, 0, 1));
    assert_eq!(machine.close(254), (0, 0, 0));
    assert_eq!(machine.close(254), (3, 0, 0));
}

#[test]
fn number_4_exists() {
    let mut machine = Machine::standard();
    assert_eq!(machine.open(5, 1), (0, 0, 0));
    assert_eq!(machine.open(5, 1), (4, 0, 0));
    assert_eq!(machine.open_named(5, 65_535, b"?:?"), (4, 0, 0));
    machine.close(5);
    assert_eq!(machine.open(5, 1), (0, 0, 0));
}

#[test]
fn number_5_name_and_6_device() {
    let mut machine = Machine::standard();
    assert_eq!(machine.open_named(5, 65_535, b"NO-:"), (5, 0, 0));
    assert_eq!(machine.open_named(5, 65_535, b"NO-1:"), (6, 0, 0));
    assert_eq!(machine.open_named(5, 1, b"NET-1:"), (0, 1, 1));
}

#[test]
fn number_7_driver() {
    let mut machine = Machine::standard();
    for driver_status in 0..=255 {
        let name = b"NET1:";
        let (channel, n) = (driver_status, 65_535);
        let open = Call::Open {
            channel: channel.min(254),
            driver_status,
            n,
            name,
        };
        let expected = match driver_status {
            0 => (9, 0, 0),
            _ => (7, driver_status, 0),
        };
        assert_eq!(machine.call(open), expected);
    }
}

#[test]
fn number_8_full_of_channels() {
    let mut machine = Machine::standard();
    for number in 0..32 {
        assert_eq!(machine.open(number, 0), (0, 0, 0));
    }
    assert_eq!(machine.open(32, 65_535), (8, 0, 0));
    machine.close(7);
    assert_eq!(machine.open(32, 65_535), (9, 0, 0));
    assert_eq!(machine.open(32, 0), (0, 0, 0));
}

#[test]
fn number_8_full_of_devices() {
    let mut machine = Machine::standard();
    for row in 3..16 {
        assert_eq!(machine.link(0, &[b'A' + row]), (0, row, 11_074));
    }
    assert_eq!(machine.link(65_535, b"LAST"), (8, 0, 0));
    assert_eq!(machine.link(0, b"last"), (5, 0, 0));
}

#[test]
fn number_9_room_for_a_link() {
    let mut machine = Machine::standard();
    assert_eq!(machine.link(65_535, b"A"), (9, 0, 0));
    assert_eq!(machine.link(11_075, b"A"), (9, 0, 0));
    assert_eq!(machine.link(10_819, b"A"), (9, 0, 0));
    assert_eq!(machine.link(10_818, b"A"), (0, 3, 256));
    assert_eq!(machine.link(1, b"B"), (9, 0, 0));
    assert_eq!(machine.link(0, b"B"), (0, 4, 256));
}

#[test]
fn number_9_room_rule_for_a_link() {
    let mut machine = Machine::standard();
    machine.open(0, 43_826 - 5);
    assert_eq!(machine.link(6, b"A"), (9, 0, 0));
    assert_eq!(machine.link(5, b"A"), (0, 3, 11_069));
    assert_eq!(machine.boundary(), (0, 253, 0));
    assert_eq!(machine.link(1, b"A"), (9, 0, 0));
}

#[test]
fn number_9_room_with_a_segment_shared() {
    let mut machine = Machine::standard();
    for _ in 0..3 {
        machine.allocate(0);
    }
    machine.set_boundary(11_000);
    machine.free(0, 253);
    assert_eq!(machine.link(75, b"A"), (9, 0, 0));
    assert_eq!(machine.link(74, b"A"), (0, 3, 11_000));
    assert_eq!(machine.open(0, 0), (9, 0, 0));
    machine.set_boundary(10_984);
    assert_eq!(machine.open(0, 1), (9, 0, 0));
    assert_eq!(machine.open(0, 0), (0, 0, 0));
    machine.free(0, 255);
    assert_eq!(machine.open(1, 11_000 - 32 + 16_384), (0, 0, 0));
}

#[test]
fn number_9_room_down_to_nothing_in_a_shared_segment() {
    let mut machine = Machine::start(1_000, &[253, 254, 255]);
    machine.open(0, 1_000);
    assert_eq!(machine.allocate(0), (17, 254, 16_368));
    machine.set_boundary(0);
    assert_eq!(machine.open(1, 16_353), (9, 0, 0));
    assert_eq!(machine.open(1, 16_352), (0, 0, 0));
    assert_eq!(machine.boundary(), (0, 254, 0));
    assert_eq!(machine.link(1, b"A"), (9, 0, 0));
    assert_eq!(machine.class(254), class::SHARED);
}

#[test]
fn number_10_segment_and_17_shared() {
    let mut machine = Machine::standard();
    assert_eq!(machine.allocate(1), (0, 253, 16_384));
    assert_eq!(machine.allocate(1), (0, 254, 16_384));
    assert_eq!(machine.allocate(1), (10, 0, 0));
    machine.open(0, 11_057);
    assert_eq!(machine.allocate(0), (17, 255, 1));
    assert_eq!(machine.allocate(0), (10, 0, 0));
    machine.free(0, 255);
    machine.close(0);
    machine.open(0, 11_058);
    assert_eq!(machine.allocate(0), (10, 0, 0));
}

#[test]
fn number_11_owner_of_a_segment_to_free() {
    let mut machine = Machine::standard();
    machine.allocate(0);
    machine.allocate(1);
    for segment in [0, 7, 251, 252, 254, 255] {
        assert_eq!(machine.free(0, segment), (11, 0, 0));
    }
    for segment in [0, 7, 251, 252, 253, 255] {
        assert_eq!(machine.free(1, segment), (11, 0, 0));
    }
    machine.allocate(0);
    assert_eq!(machine.free(1, 255), (11, 0, 0));
    assert_eq!(machine.free(0, 255), (0, 0, 0));
    assert_eq!(machine.class(255), class::SYSTEM);
    assert_eq!(machine.tables.user_boundary, 0);
    assert_eq!(machine.free(0, 253), (0, 0, 0));
    assert_eq!(machine.free(0, 253), (11, 0, 0));
    assert_eq!(machine.free(1, 254), (0, 0, 0));
    assert_eq!(machine.status(), [2, 0, 1, 0, 0]);
}

#[test]
fn number_11_owner_of_a_segment_to_store_or_load() {
    let mut machine = Machine::standard();
    machine.allocate(1);
    for segment in [0, 7, 251, 253, 254, 255] {
        assert_eq!(machine.store(segment, 60_000, &[1]), (11, 0, 0));
        assert_eq!(machine.load(segment, 60_000, 1), (11, 0, 0));
    }
    machine.allocate(0);
    for segment in [252, 254] {
        assert_eq!(machine.store(segment, 16_383, &[1]), (0, 0, 1));
        assert_eq!(machine.load(segment, 16_383, 1), (0, 0, 1));
        assert_eq!(machine.output[0], 1);
    }
}

#[test]
fn number_12_boundary() {
    let mut machine = Machine::standard();
    assert_eq!(machine.set_boundary(0), (12, 0, 0));
    for _ in 0..3 {
        machine.allocate(0);
    }
    assert_eq!(machine.set_boundary(0), (0, 0, 0));
    assert_eq!(machine.open(0, 0), (0, 0, 0));
    assert_eq!(machine.set_boundary(11_059), (12, 0, 0));
    assert_eq!(machine.set_boundary(65_535), (12, 0, 0));
    assert_eq!(machine.set_boundary(11_058), (0, 0, 0));
}

#[test]
fn number_13_range_of_a_write() {
    let mut machine = Machine::standard();
    machine.open(1, 100);
    assert_eq!(machine.write(1, 98, &[1, 2]), (0, 0, 2));
    assert_eq!(machine.write(1, 99, &[1, 2]), (13, 0, 0));
    assert_eq!(machine.write(1, 65_535, &[1]), (13, 0, 0));
    assert_eq!(machine.write(1, 0, &[1; 100]), (0, 0, 100));
    assert_eq!(machine.write(1, 0, &[1; 101]), (13, 0, 0));
    assert_eq!(machine.write(1, 1, &[1; 70_000]), (13, 0, 0));
}

#[test]
fn number_13_range_with_no_bytes() {
    let mut machine = Machine::standard();
    machine.open(1, 100);
    machine.open(2, 0);
    for (channel, end) in [(1, 100), (2, 0)] {
        assert_eq!(machine.write(channel, end, &[]), (0, 0, 0));
        assert_eq!(machine.write(channel, end + 1, &[]), (13, 0, 0));
    }
    assert_eq!(machine.store(252, 16_384, &[]), (0, 0, 0));
    assert_eq!(machine.store(252, 16_385, &[]), (13, 0, 0));
    assert_eq!(machine.load(252, 16_384, 0), (0, 0, 0));
    assert_eq!(machine.load(252, 16_385, 0), (13, 0, 0));
}

#[test]
fn number_13_range_of_a_segment() {
    let mut machine = Machine::standard();
    for _ in 0..3 {
        machine.allocate(0);
    }
    for (segment, end) in [(252, 16_384u16), (253, 16_384), (255, 11_074)] {
        assert_eq!(machine.store(segment, end - 2, &[1, 2]), (0, 0, 2));
        assert_eq!(machine.store(segment, end - 1, &[1, 2]), (13, 0, 0));
        assert_eq!(machine.load(segment, 0, end), (0, 0, end));
        assert_eq!(machine.load(segment, 1, end), (13, 0, 0));
        assert_eq!(machine.load(segment, 65_535, 65_535), (13, 0, 0));
    }
    machine.set_boundary(0);
    assert_eq!(machine.store(255, 0, &[]), (0, 0, 0));
    assert_eq!(machine.store(255, 0, &[1]), (13, 0, 0));
    assert_eq!(machine.load(255, 1, 0), (13, 0, 0));
}

#[test]
fn number_13_lent_output_too_short() {
    let mut machine = Machine::standard();
    machine.open(1, 100);
    for (request, length) in [
        (Call::Status, 5),
        (decode(6, &[1, 0, 0, 60, 0]), 60),
        (decode(258, &[252, 0, 0, 60, 0]), 60),
    ] {
        machine.output.resize(length - 1, 0xDD);
        assert_eq!(machine.call(request), (13, 0, 0));
        machine.output.resize(length, 0xDD);
        assert_eq!(machine.call(request), (0, 0, length as u16));
    }
    machine.output.clear();
    assert_eq!(machine.read(1, 100, 0), (0, 0, 0));
    assert_eq!(machine.write(1, 0, &[1]), (0, 0, 1));
}

#[test]
fn number_15_flags() {
    let mut machine = Machine::standard();
    for flags in 0..=255 {
        let number = if flags & 0x8F == 0 { 0 } else { 15 };
        assert_eq!(machine.reset(flags), (number, 0, 0));
    }
}

/// Starts on any tables, with the RAM of so many segments.
fn started(r: u16, list: &[u8], ram: usize) -> u8 {
    let mut machine = Machine {
        tables: Tables::default(),
        ram: vec![0xEE; ram],
        output: vec![],
        moved: 0,
    };
    machine.tables.r = 77;
    machine.call(Call::Start { r, list }).0
}

#[test]
fn number_16_start_list() {
    let rising: Vec<u8> = (224..=255).collect();
    let longer: Vec<u8> = (223..=255).collect();
    assert_eq!(started(300, &rising, 32 * SEGMENT), 0);
    assert_eq!(started(300, &longer, 33 * SEGMENT), 16);
    assert_eq!(started(300, &[], 0), 16);
    assert_eq!(started(300, &[255], SEGMENT), 16);
    assert_eq!(started(300, &[254, 255], 2 * SEGMENT), 0);
    assert_eq!(started(300, &[8, 255], 2 * SEGMENT), 0);
    assert_eq!(started(300, &[7, 255], 2 * SEGMENT), 16);
    assert_eq!(started(300, &[253, 254], 2 * SEGMENT), 16);
    assert_eq!(started(300, &[255, 255], 2 * SEGMENT), 16);
    assert_eq!(started(300, &[9, 9, 255], 3 * SEGMENT), 16);
    assert_eq!(started(300, &[10, 9, 255], 3 * SEGMENT), 16);
}

#[test]
fn number_16_start_room_and_ram() {
    for (r, number) in [
        (0, 16),
        (255, 16),
        (256, 0),
        (16_128, 0),
        (16_129, 16),
        (65_535, 16),
    ] {
        assert_eq!(started(r, &[254, 255], 2 * SEGMENT), number);
    }
    for ram in [0, 2 * SEGMENT - 1, 2 * SEGMENT + 1, 3 * SEGMENT] {
        assert_eq!(started(300, &[254, 255], ram), 16);
    }
}

#[test]
fn numbers_of_the_refusals() {
    let in_order = [
        Refusal::Tables,
        Refusal::Call,
        Refusal::Channel,
        Refusal::Exists,
        Refusal::Name,
        Refusal::Device,
        Refusal::Driver(9),
        Refusal::Full,
        Refusal::Room,
        Refusal::Segment,
        Refusal::Owner,
        Refusal::Boundary,
        Refusal::Range,
        Refusal::Guard,
        Refusal::Flags,
        Refusal::Start,
    ];
    let modules = [(19, Refusal::Module), (20, Refusal::Page)];
    for (number, refusal) in (1..).zip(in_order).chain(modules) {
        let a = if number == 7 { 9 } else { 0 };
        assert_eq!(Reply::from(refusal), Reply::new(number, a, 0));
    }
}

#[test]
fn the_lowest_number_wins_in_an_open() {
    let mut machine = Machine::standard();
    for number in 0..32 {
        machine.open(number, 0);
    }
    let steps = [
        (255, 9, 65_535, &b"?:"[..], (3, 0, 0)),
        (31, 9, 65_535, b"?:", (4, 0, 0)),
        (32, 9, 65_535, b"?:", (5, 0, 0)),
        (32, 9, 65_535, b"A:", (6, 0, 0)),
        (32, 9, 65_535, b"NET:", (7, 9, 0)),
        (32, 0, 65_535, b"NET:", (8, 0, 0)),
    ];
    for (channel, driver_status, n, name, expected) in steps {
        let open = Call::Open {
            channel,
            driver_status,
            n,
            name,
        };
        assert_eq!(machine.call(open), expected);
        let mut bad = machine.tables.clone();
        bad.r = 0;
        let reply = call(&mut bad, &mut machine.ram, open, &mut machine.output);
        assert_eq!(reply.number, 1);
    }
}
