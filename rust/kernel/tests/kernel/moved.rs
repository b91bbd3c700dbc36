//! Order 8: how many bytes closes and links move, with the numbers written out.
//! The machine holds every call of every test against the order's sentences.

use crate::machine::{Answer, Machine};
use crate::moves::pattern;
use exos_kernel::Call;

/// The longest record.
const LONGEST: u32 = 16 + 65_535;
/// The most that T can be: an R of 16,128 and thirty further segments.
const MOST_T: u32 = 16_128 + 30 * 16_384;

const DONE: Answer = (0, 0, 0);

/// Opens channels 0, 1 and so on, whose records have these lengths.
fn opened(mut machine: Machine, lengths: &[u32]) -> Machine {
    for (number, &length) in (0..).zip(lengths) {
        let n = (length - 16) as u16;
        assert_eq!(machine.open(number, n), DONE);
        let data = pattern(n.into(), number.into());
        assert_eq!(machine.write(number, 0, &data), (0, 0, n));
    }
    machine
}

/// Records of 100, 200 and 300 bytes.
fn three() -> Machine {
    opened(Machine::standard(), &[100, 200, 300])
}

/// The most segments, with the most R.
fn largest() -> Machine {
    let list: Vec<u8> = (224..=255).collect();
    Machine::start(16_128, &list)
}

/// How many bytes a close moves that is done.
fn closed(machine: &Machine, channel: u8) -> u32 {
    let mut machine = machine.clone();
    assert_eq!(machine.close(channel), DONE);
    machine.moved
}

/// How many bytes a link moves that is done.
fn linked(machine: &Machine, m: u16) -> u32 {
    let mut machine = machine.clone();
    let (device, r) = (machine.tables.device_count, machine.tables.r - m);
    assert_eq!(machine.link(m, b"NEW"), (0, device, r));
    machine.moved
}

/// "For close the lengths of the records after the closed one."
#[test]
fn a_close_of_the_first_the_middle_and_the_last() {
    let machine = three();
    assert_eq!(closed(&machine, 0), 500);
    assert_eq!(closed(&machine, 1), 300);
    assert_eq!(closed(&machine, 2), 0);
    let only = opened(Machine::standard(), &[100]);
    assert_eq!(closed(&only, 0), 0);
}

#[test]
fn a_close_in_each_of_32_rows() {
    let lengths: Vec<u32> = (16..48).collect();
    let machine = opened(Machine::standard(), &lengths);
    for row in 0..32 {
        let later = lengths[row + 1..].iter().sum();
        assert_eq!(closed(&machine, row as u8), later);
    }
    assert_eq!(closed(&machine, 0), 992);
}

#[test]
fn a_refused_close_moves_nothing() {
    let mut machine = three();
    for channel in [3, 255] {
        assert_eq!((machine.close(channel), machine.moved), ((3, 0, 0), 0));
    }
    machine.ram.push(0);
    assert_eq!((machine.close(0), machine.moved), ((1, 0, 0), 0));
    machine.ram.pop();
    machine.tables.cold_r = 0;
    assert_eq!((machine.close(0), machine.moved), ((1, 0, 0), 0));
}

/// "For a link T if R falls, else 0."
#[test]
fn a_link_with_and_without_ram_and_channels() {
    let fresh = Machine::standard();
    assert_eq!((linked(&fresh, 0), linked(&fresh, 1_000)), (0, 0));
    let mut machine = three();
    for (m, moved) in [(1, 600), (255, 600), (256, 600), (10_818, 600)] {
        assert_eq!(linked(&machine, m), moved);
    }
    let ram = machine.ram.clone();
    assert_eq!(
        (machine.link(0, b"NEW"), machine.moved),
        ((0, 3, 11_074), 0)
    );
    assert!(machine.ram == ram);
}

/// T is one below R, R, and one above it, before the link and after it; then the
/// line ends at an edge further on, and the chain grows by the link.
#[test]
fn a_link_under_lines_up_to_the_edges() {
    for t in [11_073, 11_074, 11_075, 27_457, 27_458, 27_459] {
        let machine = opened(Machine::standard(), &[t]);
        assert_eq!((linked(&machine, 0), linked(&machine, 1)), (0, t));
        let machine = opened(Machine::standard(), &[t - 100]);
        assert_eq!(linked(&machine, 100), t - 100);
    }
    let mut machine = opened(Machine::standard(), &[27_458]);
    assert_eq!(machine.chain(), [255, 254]);
    machine.link(1, b"NEW");
    assert_eq!((machine.chain().len(), machine.moved), (3, 27_458));
}

#[test]
fn a_refused_link_moves_nothing() {
    let mut machine = three();
    let refused = |machine: &mut Machine, m: u16, name: &[u8]| {
        let answer = machine.link(m, name);
        (answer, machine.moved)
    };
    assert_eq!(refused(&mut machine, 1, b""), ((5, 0, 0), 0));
    assert_eq!(refused(&mut machine, 10_819, b"NEW"), ((9, 0, 0), 0));
    machine.open(9, 43_226);
    assert_eq!(machine.t(), 11_074 + 2 * 16_384);
    assert_eq!(refused(&mut machine, 1, b"NEW"), ((9, 0, 0), 0));
    for row in 3..16 {
        assert_eq!(machine.link(0, b"NEW"), (0, row, 11_074));
    }
    assert_eq!(refused(&mut machine, 1, b"NEW"), ((8, 0, 0), 0));
    machine.tables.cold_r = 0;
    assert_eq!(refused(&mut machine, 1, b"NEW"), ((1, 0, 0), 0));
}

/// A reset closes all channels, and no record is left to move.
#[test]
fn a_reset_moves_nothing() {
    for flags in [0x00, 0x10, 0x20, 0x30, 0x40, 0x50, 0x60, 0x70] {
        let mut machine = three();
        machine.link(100, b"NEW");
        assert_eq!((machine.reset(flags), machine.moved), (DONE, 0));
    }
}

/// "Other and refused calls report 0."
#[test]
fn other_calls_move_nothing() {
    let mut machine = three();
    let calls = [
        Call::Open {
            channel: 3,
            driver_status: 0,
            n: 40_000,
            name: b"NET:",
        },
        Call::Read {
            channel: 2,
            offset: 0,
            length: 9,
        },
        Call::Write {
            channel: 0,
            offset: 0,
            data: &[1; 84],
        },
        Call::Default {
            unit: 1,
            name: b"NET",
        },
        Call::Status,
        Call::Boundary,
        Call::Allocate { caller: 0 },
        Call::SetUserBoundary { value: 1 },
        Call::Free {
            caller: 0,
            segment: 253,
        },
        Call::LoadModule {
            segment: 252,
            page: 0,
            offset: 0,
            stream: &[0, 0xE0],
        },
        Call::Store {
            segment: 252,
            offset: 0,
            data: &[1; 9],
        },
        Call::Load {
            segment: 252,
            offset: 0,
            length: 9,
        },
        Call::Start {
            r: 256,
            list: &[252, 253, 254, 255],
        },
    ];
    for call in calls {
        let is_granted = matches!(machine.call(call).0, 0 | 17);
        assert_eq!((is_granted, machine.moved), (true, 0), "{call:?}");
    }
}

#[test]
fn more_than_16_bits() {
    let list = [249, 250, 251, 252, 253, 254, 255];
    let machine = opened(Machine::start(256, &list), &[16, LONGEST]);
    assert_eq!(closed(&machine, 0), 65_551);
    let machine = opened(Machine::start(257, &list), &[16, LONGEST]);
    assert_eq!(linked(&machine, 1), 65_567);
    assert_eq!(linked(&machine, 0), 0);
}

/// A line of so many bytes, most of them in the longest records, behind one of 16.
fn line(t: u32) -> Vec<u32> {
    let mut lengths = vec![16];
    lengths.extend([LONGEST; 7]);
    lengths.push(t - lengths.iter().sum::<u32>());
    lengths
}

#[test]
fn the_most_that_32_segments_allow() {
    let machine = opened(largest(), &line(MOST_T));
    assert_eq!(machine.chain().len(), 31);
    assert_eq!(closed(&machine, 0), 507_632);
    assert_eq!(closed(&machine, 7), MOST_T - 16 - 7 * LONGEST);
    assert_eq!(linked(&machine, 0), 0);
    let mut refused = machine;
    assert_eq!((refused.link(1, b"NEW"), refused.moved), ((9, 0, 0), 0));
    let machine = opened(largest(), &line(MOST_T - 1));
    assert_eq!(linked(&machine, 1), 507_647);
}

#[test]
fn a_close_after_a_link() {
    let mut machine = three();
    machine.link(10_718, b"NEW");
    assert_eq!((machine.moved, machine.chain().len()), (600, 2));
    for (channel, moved) in [(1, 300), (0, 300), (2, 0)] {
        assert_eq!((machine.close(channel), machine.moved), (DONE, moved));
    }
}

#[test]
fn with_a_segment_shared() {
    let mut machine = Machine::start(1_000, &[254, 255]);
    machine = opened(machine, &[100, 200, 300]);
    assert_eq!(machine.allocate(0), (17, 255, 400));
    machine.set_boundary(300);
    assert_eq!((closed(&machine, 0), closed(&machine, 1)), (500, 300));
    assert_eq!((linked(&machine, 100), linked(&machine, 0)), (600, 0));
    assert_eq!((machine.link(101, b"NEW"), machine.moved), ((9, 0, 0), 0));

    let mut machine = Machine::start(256, &[253, 254, 255]);
    machine = opened(machine, &[100, 200, 300]);
    assert_eq!(machine.allocate(0), (17, 254, 16_040));
    assert_eq!((closed(&machine, 0), closed(&machine, 2)), (500, 0));
    machine.close(2);
    assert_eq!((machine.chain().len(), machine.moved), (2, 0));
    // the shared segment becomes the user's
    assert_eq!((machine.close(0), machine.moved), (DONE, 200));
    assert_eq!(machine.chain(), [255]);
}
