//! Order 2: "A read that stops at the end."

use crate::machine::{Answer, Machine};
use crate::moves::pattern;
use exos_kernel::class;
use std::collections::BTreeSet;

/// The channel that is read, and those before and behind it on the line.
const READ: u8 = 7;
const BEFORE: u8 = 8;
const BEHIND: u8 = 9;

/// The offset of [`OVER_AN_EDGE`] bytes at which their second segment begins:
/// R less the record before, of 19 bytes, and less a heading.
const EDGE: u16 = 11_074 - 19 - 16;
/// A buffer's length that leaves 21 bytes for the second segment.
const OVER_AN_EDGE: u16 = EDGE + 21;

/// No byte, one, some in one segment, some in two, as many as can be.
const LENGTHS: [u16; 5] = [0, 1, 100, OVER_AN_EDGE, 65_535];

/// A machine with a buffer of n bytes, all written, between two others.
fn machine_with(n: u16) -> Machine {
    let mut machine = Machine::start(11_074, &[250, 251, 252, 253, 254, 255]);
    for (channel, n) in [(BEFORE, 3), (READ, n), (BEHIND, 50)] {
        assert_eq!(machine.open(channel, n), (0, 0, 0));
        let data = pattern(n.into(), channel.into());
        assert_eq!(machine.write(channel, 0, &data), (0, 0, n));
    }
    machine
}

/// Reads into an output of so many bytes: the answer, and the output.
fn read(machine: &mut Machine, offset: u16, length: u16, output: usize) -> (Answer, Vec<u8>) {
    machine.output = vec![0xDD; output];
    let (tables, ram) = (machine.tables.clone(), machine.ram.clone());
    let answer = machine.read(READ, offset, length);
    assert_eq!(machine.tables, tables);
    assert!(machine.ram == ram);
    (answer, machine.output.clone())
}

/// Bytes, and behind them an output as it was.
fn filled(bytes: &[u8], output: usize) -> Vec<u8> {
    let mut filled = vec![0xDD; output];
    filled[..bytes.len()].copy_from_slice(bytes);
    filled
}

#[test]
fn b_is_the_number_of_the_bytes_that_remain_up_to_the_length_asked() {
    for (n, offset, length, given) in [
        (0, 0, 0, 0),
        (0, 0, 1, 0),
        (0, 0, 65_535, 0),
        (0, 1, 0, 0),
        (0, 65_535, 65_535, 0),
        (1, 0, 0, 0),
        (1, 0, 1, 1),
        (1, 0, 2, 1),
        (1, 0, 65_535, 1),
        (1, 1, 1, 0),
        (1, 2, 1, 0),
        (100, 0, 99, 99),
        (100, 0, 100, 100),
        (100, 0, 101, 100),
        (100, 98, 1, 1),
        (100, 98, 256, 2),
        (100, 99, 0, 0),
        (100, 99, 1, 1),
        (100, 99, 2, 1),
        (100, 99, 65_535, 1),
        (100, 100, 0, 0),
        (100, 100, 1, 0),
        (100, 100, 65_535, 0),
        (100, 101, 0, 0),
        (100, 101, 1, 0),
        (100, 101, 65_535, 0),
        (100, 65_535, 0, 0),
        (100, 65_535, 1, 0),
        (100, 65_535, 65_535, 0),
        (65_535, 0, 65_535, 65_535),
        (65_535, 1, 65_535, 65_534),
        (65_535, 65_534, 1, 1),
        (65_535, 65_534, 2, 1),
        (65_535, 65_534, 65_535, 1),
        (65_535, 65_535, 0, 0),
        (65_535, 65_535, 1, 0),
        (65_535, 65_535, 65_535, 0),
    ] {
        let (answer, output) = read(&mut machine_with(n), offset, length, 65_535);
        assert_eq!(answer, (0, 0, given), "{n} {offset} {length}");
        let bytes = &pattern(n.into(), READ.into());
        let given = bytes.iter().skip(offset.into()).take(given.into());
        let given: Vec<u8> = given.copied().collect();
        assert!(output == filled(&given, 65_535), "{n} {offset} {length}");
    }
}

/// What one read of a buffer is to give, into outputs around that and around
/// what is asked.
fn check_outputs(machine: &mut Machine, bytes: &[u8], offset: u16, length: u16) {
    let rest = bytes.get(usize::from(offset)..).unwrap_or(&[]);
    let asked = usize::from(length);
    let given = &rest[..asked.min(rest.len())];
    let (short, of_asked) = (given.len().checked_sub(1), asked.checked_sub(1));
    let outputs = [0, given.len(), given.len() + 1, asked];
    let outputs: BTreeSet<_> = outputs.into_iter().chain(short).chain(of_asked).collect();
    for output in outputs {
        let about = format!("n {} {offset} {length} {output}", bytes.len());
        let (answer, left) = read(machine, offset, length, output);
        if output < given.len() {
            assert_eq!(answer, (13, 0, 0), "{about}");
            assert!(left == filled(&[], output), "{about}");
        } else {
            assert_eq!(answer, (0, 0, given.len() as u16), "{about}");
            assert!(left == filled(given, output), "{about}");
        }
    }
}

#[test]
fn range_is_given_only_where_the_output_is_shorter_than_what_would_be_given() {
    for n in LENGTHS {
        let mut machine = machine_with(n);
        let bytes = pattern(n.into(), READ.into());
        let around = [n.saturating_sub(1), n, n.saturating_add(1), 65_535];
        let offsets: BTreeSet<_> = around.into_iter().chain([0, EDGE - 9]).collect();
        for offset in offsets {
            let left = n.saturating_sub(offset);
            let lengths = BTreeSet::from([0, 1, left, left.saturating_add(1), 65_535]);
            for length in lengths {
                check_outputs(&mut machine, &bytes, offset, length);
            }
        }
    }
}

#[test]
fn an_output_short_of_what_is_asked_and_not_of_what_is_given() {
    let machine = &mut machine_with(100);
    assert_eq!(read(machine, 90, 256, 255).0, (0, 0, 10));
    assert_eq!(read(machine, 90, 256, 10).0, (0, 0, 10));
    assert_eq!(read(machine, 90, 256, 9).0, (13, 0, 0));
    assert_eq!(read(machine, 100, 256, 0).0, (0, 0, 0));
    assert_eq!(read(machine, 101, 256, 0).0, (0, 0, 0));
    assert_eq!(read(machine, 90, 10, 9).0, (13, 0, 0));
}

#[test]
fn a_read_over_a_segments_edge_stops_in_the_second_segment() {
    let mut machine = machine_with(OVER_AN_EDGE);
    assert_eq!(machine.class(254), class::SYSTEM);
    let bytes = pattern(OVER_AN_EDGE.into(), READ.into());
    let rest = &bytes[usize::from(EDGE - 9)..];
    let (answer, output) = read(&mut machine, EDGE - 9, 256, 256);
    assert_eq!(answer, (0, 0, 30));
    assert_eq!(output, filled(rest, 256));
    // nine bytes at the bottom of 255, the others at the top of 254
    let lowest: Vec<u8> = machine.segment(255)[..9].iter().rev().copied().collect();
    let highest = machine.segment(254)[16_384 - 21..].iter().rev().copied();
    assert_eq!(rest, lowest.into_iter().chain(highest).collect::<Vec<u8>>());
}

/// "Log readers ask for 256 bytes at a time."
#[test]
fn a_buffer_is_read_256_bytes_at_a_time() {
    for n in [0, 1, 255, 256, 257, 600, OVER_AN_EDGE] {
        let mut machine = machine_with(n);
        let mut log: Vec<u8> = Vec::new();
        loop {
            let (answer, output) = read(&mut machine, log.len() as u16, 256, 256);
            let (0, 0, given) = answer else {
                panic!("{answer:?}");
            };
            if given == 0 {
                break;
            }
            log.extend(&output[..given.into()]);
        }
        assert!(log == pattern(n.into(), READ.into()), "{n}");
    }
}

#[test]
fn a_channel_that_is_not_open_comes_first() {
    let mut machine = machine_with(100);
    machine.close(READ);
    for output in [0, 255, 256] {
        assert_eq!(read(&mut machine, 0, 256, output).0, (3, 0, 0));
    }
}

/// "Write, store and load keep RANGE": no byte is written, stored or loaded
/// where one is past the end.
#[test]
fn write_store_and_load_do_not_stop_short() {
    let mut machine = machine_with(100);
    assert_eq!(machine.write(READ, 99, &[1]), (0, 0, 1));
    assert_eq!(machine.write(READ, 99, &[2, 2]), (13, 0, 0));
    assert_eq!(machine.write(READ, 100, &[2]), (13, 0, 0));
    assert_eq!(machine.write(READ, 101, &[]), (13, 0, 0));
    assert_eq!(machine.buffer(READ, 100)[99], 1);
    assert_eq!(machine.allocate(0), (0, 251, 16_384));
    for segment in [250, 251] {
        assert_eq!(machine.store(segment, 16_383, &[1]), (0, 0, 1));
        assert_eq!(machine.store(segment, 16_383, &[2, 2]), (13, 0, 0));
        assert_eq!(machine.store(segment, 16_385, &[]), (13, 0, 0));
        assert_eq!(machine.load(segment, 16_383, 2), (13, 0, 0));
        assert_eq!(machine.load(segment, 16_385, 0), (13, 0, 0));
        assert_eq!(machine.load(segment, 16_383, 1), (0, 0, 1));
        assert_eq!(machine.output[0], 1);
    }
}
