//! Random calls, each made on the kernel and on the plain model.

use crate::machine::{Answer, Machine};
use crate::model::{Model, Spelling};
use crate::plain_modules::some_stream;
use exos_kernel::Call;
use exos_random::Random;
use std::mem;

const SPELLINGS: [Spelling; 9] = [
    ("VIDEO:", Some("VIDEO"), None),
    ("video-7:X", Some("VIDEO"), Some(7)),
    ("Net255:", Some("NET"), Some(255)),
    ("KEYBOARD-0:", Some("KEYBOARD"), Some(0)),
    ("DISK1:A.B", Some("DISK"), Some(1)),
    ("TAPE:", Some("TAPE"), None),
    ("", None, None),
    ("9:file", None, Some(9)),
    ("file", None, None),
];

const NAMES: [&str; 4] = ["DISK", "TAPE", "NET", "VIDEO"];

/// A buffer length: small, middling, any, or at the edge of the room.
fn some_n(random: &mut Random, model: &Model) -> usize {
    let room = model.layout_room() - model.t();
    match random.below(6) {
        0 | 1 => random.below(64),
        2 | 3 => random.below(6_000),
        4 => random.below(65_536),
        _ => (room + random.below(4)).saturating_sub(18).min(65_535),
    }
}

fn some_number(random: &mut Random) -> u8 {
    random.pick(&[0, 1, 2, 3, 4, 5, 6, 7, 200, 253, 254, 255])
}

fn some_segment(random: &mut Random, model: &Model) -> u8 {
    if random.one_in(20) {
        random.byte()
    } else {
        random.pick(&model.list)
    }
}

/// An offset into a buffer or segment of so many bytes, mostly within.
fn some_offset(random: &mut Random, length: usize) -> usize {
    match random.below(4) {
        0 => length.saturating_sub(random.below(12)),
        1 => random.below(0x70),
        _ => random.below(length + 2),
    }
}

/// An output that mostly holds so many bytes.
fn some_output(random: &mut Random, length: usize) -> Vec<u8> {
    let more = random.below(9);
    vec![0xDD; (length + more).saturating_sub(1)]
}

/// A read or a load: bytes where the lent output holds them.
fn check_read(
    random: &mut Random,
    machine: &mut Machine,
    expected: Result<&[u8], Answer>,
    request: Call,
) {
    let output = some_output(random, expected.map_or(0, <[u8]>::len));
    let others = mem::replace(&mut machine.output, output);
    let answer = machine.call(request);
    match expected {
        Ok(bytes) if bytes.len() <= machine.output.len() => {
            assert_eq!(answer, (0, 0, bytes.len() as u16));
            assert!(machine.output[..bytes.len()] == *bytes);
        }
        Ok(_) => assert_eq!(answer, (13, 0, 0)),
        Err(refused) => assert_eq!(answer, refused),
    }
    machine.output = others;
}

fn step_channel(random: &mut Random, model: &mut Model, machine: &mut Machine) {
    let number = some_number(random);
    let n = model
        .find(number)
        .map_or(50, |at| model.opens[at].bytes.len());
    let offset = some_offset(random, n).min(65_535);
    match random.below(8) {
        0..=2 => {
            let n = some_n(random, model);
            let spelling = random.pick(&SPELLINGS);
            let answer = machine.open_named(number, n as u16, spelling.0.as_bytes());
            assert_eq!(answer, model.open(number, n, spelling));
        }
        3 | 4 => {
            let before = model.spots();
            assert_eq!(machine.close(number), model.close(number));
            assert_eq!(machine.moved as usize, model.changed_since(&before));
        }
        5 | 6 => {
            let length = random.pick(&[0, 1, 2, 9, 300, 20_000]);
            let data = random.bytes(length.min(n));
            let expected = model.write(number, offset, &data);
            assert_eq!(machine.write(number, offset as u16, &data), expected);
        }
        _ => {
            let offset = random.pick(&[offset, offset, offset, 65_535]);
            let left = n - offset.min(n);
            let lengths = [0, 1, 2, 256, left, left + 1, 65_535];
            let length = random.pick(&lengths).min(65_535);
            let expected = model.read(number, offset, length);
            let request = Call::Read {
                channel: number,
                offset: offset as u16,
                length: length as u16,
            };
            check_read(random, machine, expected, request);
        }
    }
}

fn step_segment(random: &mut Random, model: &mut Model, machine: &mut Machine) {
    let caller = random.below(3) as u8 / 2;
    let segment = some_segment(random, model);
    let end = model.users(segment).unwrap_or(100);
    let offset = some_offset(random, end);
    match random.below(10) {
        0 | 1 => assert_eq!(machine.allocate(caller), model.allocate(caller)),
        2 => {
            let answer = machine.free(caller, segment);
            assert_eq!(answer, model.free(caller, segment));
        }
        3 | 4 => {
            let value = some_offset(random, model.exos_boundary());
            let answer = machine.set_boundary(value as u16);
            assert_eq!(answer, model.set_boundary(value));
        }
        5 | 6 => {
            let length = random.below(14);
            let data = random.bytes(length);
            let answer = machine.store(segment, offset as u16, &data);
            assert_eq!(answer, model.store(segment, offset, &data));
        }
        7 | 8 => {
            let page = random.below(33) / 8;
            let stream = some_stream(random, offset);
            let answer = machine.load_module(segment, page as u8, offset as u16, &stream);
            assert_eq!(answer, model.load_module(segment, page, offset, &stream));
        }
        _ => {
            let length = random.pick(&[0, 1, 12, end, end.saturating_sub(offset)]);
            let expected = model.load(segment, offset, length);
            let request = Call::Load {
                segment,
                offset: offset as u16,
                length: length as u16,
            };
            check_read(random, machine, expected, request);
        }
    }
}

fn step_device(random: &mut Random, model: &mut Model, machine: &mut Machine) {
    let name = random.pick(&NAMES);
    match random.below(12) {
        0 => {
            let flags = random.below(8) as u8 * 16;
            let before = model.spots();
            assert_eq!(machine.reset(flags), model.reset(flags));
            assert_eq!(machine.moved as usize, model.changed_since(&before));
        }
        1..=3 => {
            let unit = random.byte();
            let text = name.to_lowercase();
            let name_bytes = text.as_bytes();
            let answer = machine.call(Call::Default {
                unit,
                name: name_bytes,
            });
            assert_eq!(answer, (0, 0, 0));
            model.default = (name, unit);
        }
        _ => {
            let most = random.pick(&[1, 20, 20, 1_000, 9_000]);
            let m = random.below(most);
            let before = model.spots();
            let answer = machine.link(m as u16, name.as_bytes());
            assert_eq!(answer, model.link(m, name));
            assert_eq!(machine.moved as usize, model.changed_since(&before));
        }
    }
}

fn run(case: u64, calls: usize) {
    let mut random = Random::new(1, case);
    let segments = 1 + random.below(6);
    let mut list: Vec<u8> = (0..segments).map(|_| 8 + random.below(247) as u8).collect();
    list.push(255);
    list.sort_unstable();
    list.dedup();
    let r = 256 + random.below(16_128 - 256 + 1);
    let mut machine = Machine::start(r as u16, &list);
    let mut model = Model::new(r, &list);
    for _ in 0..calls {
        match random.below(10) {
            0..=5 => step_channel(&mut random, &mut model, &mut machine),
            6..=8 => step_segment(&mut random, &mut model, &mut machine),
            _ => step_device(&mut random, &mut model, &mut machine),
        }
        model.check(&mut machine);
    }
}

#[test]
fn random_calls_agree_with_the_plain_model() {
    for case in 1..=100 {
        run(case, 150);
    }
}
