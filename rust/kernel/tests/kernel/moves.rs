//! Records on the line: headings, moves across segment edges, what becomes
//! zero and what stays.

use crate::machine::Machine;
use exos_kernel::class;

/// Bytes that differ from place to place.
pub fn pattern(n: usize, seed: usize) -> Vec<u8> {
    (0..n)
        .map(|at| (at * 7 + at / 251 + seed * 31 + 1) as u8)
        .collect()
}

#[test]
fn heading_bytes() {
    let mut machine = Machine::standard();
    let answer = machine.open_named(200, 0x9BCD, b"KEYBOARD-77:");
    assert_eq!(answer, (0, 2, 77));
    let heading = [0xDD, 0x9B, 0, 0, 1, 0, 200, 2, 77, 0, 0, 0, 0, 0, 0, 0];
    for (at, byte) in heading.into_iter().enumerate() {
        assert_eq!(machine.segment(255)[11_073 - at], byte);
    }
}

#[test]
fn the_heading_counts_in_four_bytes() {
    let mut machine = Machine::start(256, &[249, 250, 251, 252, 253, 255]);
    assert_eq!(machine.open(0, 65_535), (0, 0, 0));
    assert_eq!(machine.segment(255)[252..256], [0, 1, 0, 0x0F]);
}

#[test]
fn a_heading_across_an_edge() {
    let mut machine = Machine::start(256, &[252, 253, 254, 255]);
    machine.open(1, 256 - 16 - 6);
    machine.open_named(9, 5, b"NET3:");
    let system = machine.segment(255)[..6].to_vec();
    assert_eq!(system, [0, 1, 0, 0, 0, 21]);
    let next = machine.segment(254)[16_374..].to_vec();
    assert_eq!(next, [0, 0, 0, 0, 0, 0, 0, 3, 1, 9]);
    assert_eq!(machine.boundary(), (0, 254, 16_384 - 15));
}

#[test]
fn an_opened_buffer_is_zero_and_nothing_else_changes() {
    let mut machine = Machine::standard();
    machine.allocate(0);
    machine.store(253, 0, &[9; 16_384]);
    machine.free(0, 253);
    machine.open(0, 30_000);
    assert_eq!(machine.boundary(), (0, 253, 13_826));
    assert_eq!(machine.buffer(0, 30_000), vec![0; 30_000]);
    assert_eq!(machine.segment(253)[..13_826], [9; 13_826]);
    machine.close(0);
    assert_eq!(machine.segment(253)[..13_826], [9; 13_826]);
    assert_eq!(machine.segment(253)[13_826..], [0; 2_558]);
}

#[test]
fn buffers_run_downward_over_the_edge() {
    let mut machine = Machine::standard();
    machine.open(0, 11_060);
    machine.write(0, 11_056, &[1, 2, 3, 4]);
    assert_eq!(machine.segment(255)[..2], [2, 1]);
    assert_eq!(machine.segment(254)[16_382..], [4, 3]);
    assert_eq!(machine.buffer(0, 11_060)[11_055..], [0, 1, 2, 3, 4]);
}

#[test]
fn close_moves_later_records_across_edges() {
    let sizes = [300u16, 16_000, 20_000, 7, 0, 9_000];
    for closed in 0..sizes.len() {
        let mut machine = Machine::start(1_000, &[250, 251, 252, 253, 254, 255]);
        for (number, n) in sizes.into_iter().enumerate() {
            assert_eq!(machine.open(number as u8, n).0, 0);
            machine.write(number as u8, 0, &pattern(n.into(), number));
        }
        let t: usize = sizes.iter().map(|&n| usize::from(n) + 16).sum();
        assert_eq!(machine.chain(), [255, 254, 253, 252]);
        machine.close(closed as u8);
        for (number, n) in sizes.into_iter().enumerate() {
            if number != closed {
                let expected = pattern(n.into(), number);
                assert!(machine.buffer(number as u8, n) == expected);
            }
        }
        let left = t - 16 - usize::from(sizes[closed]);
        let chain = 1 + (left - 1_000).div_ceil(16_384);
        assert_eq!(machine.chain().len(), chain);
        check_zero_outside(&mut machine, 1_000, left);
    }
}

/// All places outside a line of length T are zero.
fn check_zero_outside(machine: &mut Machine, r: usize, t: usize) {
    let (_, last, boundary) = machine.boundary();
    assert!(t > r);
    for segment in 250..=254 {
        let end = match machine.class(segment) {
            class::SYSTEM if segment == last => usize::from(boundary),
            class::SYSTEM => 0,
            _ => 16_384,
        };
        assert!(machine.segment(segment)[..end].iter().all(|&b| b == 0));
    }
}

#[test]
fn link_moves_a_line_across_segment_edges() {
    for m in [1u16, 15, 16, 17, 700, 744] {
        let mut machine = Machine::start(1_000, &[250, 251, 252, 253, 254, 255]);
        let sizes = [300u16, 16_000, 20_000, 7, 0, 9_000];
        for (number, n) in sizes.into_iter().enumerate() {
            machine.open(number as u8, n);
            machine.write(number as u8, 0, &pattern(n.into(), number));
        }
        machine.segment(255)[1_000] = 0x77;
        assert_eq!(machine.link(m, b"LONG"), (0, 3, 1_000 - m));
        for (number, n) in sizes.into_iter().enumerate() {
            let expected = pattern(n.into(), number);
            assert!(machine.buffer(number as u8, n) == expected);
        }
        let gained = usize::from(1_000 - m)..1_000;
        assert!(machine.segment(255)[gained].iter().all(|&b| b == 0));
        assert_eq!(machine.segment(255)[1_000], 0x77);
    }
}

#[test]
fn link_appends_a_chain_segment() {
    let mut machine = Machine::standard();
    machine.open(0, 11_058);
    machine.write(0, 0, &pattern(11_058, 3));
    assert_eq!(machine.link(1, b"X"), (0, 3, 11_073));
    assert_eq!(machine.boundary(), (0, 254, 16_383));
    assert!(machine.buffer(0, 11_058) == pattern(11_058, 3));
    assert_eq!(machine.segment(255)[11_073], 0);
}

#[test]
fn link_within_the_system_segment_zeroes_old_places() {
    let mut machine = Machine::standard();
    machine.open(0, 4);
    machine.write(0, 0, &[1, 2, 3, 4]);
    assert_eq!(machine.link(1_000, b"X"), (0, 3, 10_074));
    assert_eq!(machine.segment(255)[10_074..], [0; 16_384 - 10_074]);
    assert_eq!(machine.segment(255)[10_054..10_058], [4, 3, 2, 1]);
    assert_eq!(machine.boundary(), (0, 255, 10_054));
}

#[test]
fn the_chain_need_not_fall_in_number() {
    let mut machine = Machine::start(256, &[8, 100, 150, 200, 255]);
    machine.allocate(1);
    machine.allocate(1);
    machine.allocate(1);
    machine.free(1, 100);
    machine.open(0, 256);
    assert_eq!(machine.chain(), [255, 100]);
    machine.free(1, 200);
    machine.open(1, 16_384);
    assert_eq!(machine.chain(), [255, 100, 200]);
    machine.write(1, 0, &pattern(16_384, 1));
    machine.close(0);
    assert_eq!(machine.chain(), [255, 100]);
    assert_eq!(machine.class(200), class::FREE);
    assert!(machine.buffer(1, 16_384) == pattern(16_384, 1));
}

#[test]
fn close_leaves_the_users_part_and_no_mans_land() {
    let mut machine = Machine::start(1_000, &[254, 255]);
    machine.open(0, 84);
    machine.open(1, 84);
    assert_eq!(machine.allocate(0), (17, 255, 800));
    machine.store(255, 0, &[5; 800]);
    machine.set_boundary(400);
    machine.close(0);
    assert_eq!(machine.boundary(), (0, 255, 900));
    assert_eq!(machine.segment(255)[..800], [5; 800]);
    assert_eq!(machine.tables.user_boundary, 400);
    assert_eq!(machine.class(255), class::SHARED);
}
