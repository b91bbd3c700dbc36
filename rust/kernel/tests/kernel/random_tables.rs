//! Any tables, any RAM, any arguments: every call ends, a refusal changes
//! nothing, and good tables stay good (all watched by the machine).

use crate::machine::Machine;
use crate::plain_good::plain_good;
use exos_kernel::{decode, good, lend, Lent, Tables};
use exos_random::Random;

const KINDS: [u16; 17] = [
    256, 0, 1, 3, 6, 8, 19, 20, 21, 22, 23, 24, 25, 30, 257, 258, 999,
];

/// A body that is often whole, with bytes that often mean something.
fn some_body(random: &mut Random, kind: u16) -> Vec<u8> {
    let length = random.below(8);
    let telling = [0, 0, 0, 1, 2, 3, 16, 64, 250, 253, 254, 255, b'A', b':'];
    let mut body: Vec<u8> = (0..length).map(|_| random.pick(&telling)).collect();
    if random.one_in(3) {
        body = random.bytes(length);
    }
    if random.one_in(2) {
        let tail: &[u8] = match kind {
            1 => b"NET1:",
            19 | 21 => b"DISK",
            30 => &[0x00, 0xE0],
            256 => &[250, 251, 252, 255],
            _ => &[],
        };
        body.truncate(random.pick(&[1, 2, 4, 5]));
        body.extend(tail);
    }
    body
}

fn some_call(random: &mut Random, machine: &mut Machine) -> u8 {
    let kind = random.pick(&KINDS);
    let body = some_body(random, kind);
    machine.call(decode(kind, &body)).0
}

/// Sets one field to any value.
fn spoil(random: &mut Random, tables: &mut Tables) {
    let any = (random.byte(), random.word(), random.below(32));
    let byte = random.pick(&[0, 1, 2, 3, 4, 5, 28, 29, 32, 33, 255, any.0]);
    let word = random.pick(&[0, 255, 256, 16_128, 16_129, 65_535, any.1]);
    let row = random.pick(&[0, 1, 2, 3, any.2]);
    let device = row % 16;
    match random.below(21) {
        0 => tables.segments = byte,
        1 => tables.list[row] = byte,
        2 => tables.classes[row] = byte,
        3 => tables.chain_length = byte,
        4 => tables.chain[row] = byte,
        5 => tables.user_boundary = word,
        6 => tables.r = word,
        7 => tables.cold_r = word,
        8 => tables.channel_count = byte,
        9 => tables.channels[row].number = byte,
        10 => tables.channels[row].device = byte,
        11 => tables.channels[row].unit = byte,
        12 => tables.channels[row].n = word,
        13 => tables.device_count = byte,
        14 => tables.devices[device].name[random.below(28)] = byte,
        15 => tables.devices[device].length = byte,
        16 => tables.devices[device].enabled = byte < 4,
        17 => tables.default.name[random.below(28)] = byte,
        18 => tables.default.length = byte,
        19 => tables.default.unit = byte,
        _ => tables.classes[row] = byte % 6,
    }
}

/// Good tables in some state.
fn some_machine(random: &mut Random) -> Machine {
    let mut machine = Machine::start(300 + random.below(900) as u16, &[250, 251, 252, 255]);
    for _ in 0..random.below(40) {
        some_call(random, &mut machine);
    }
    machine
}

#[test]
fn spoiled_tables() {
    let mut random = Random::new(77, 0);
    let (mut stayed, mut broke) = (0, 0);
    for _ in 0..300 {
        let started = some_machine(&mut random);
        for _ in 0..10 {
            let mut machine = started.clone();
            for _ in 0..=random.below(3) {
                spoil(&mut random, &mut machine.tables);
            }
            if random.one_in(2) {
                let segments = usize::from(machine.tables.segments);
                machine.ram.resize(segments * 16_384, 0x99);
            }
            let is_good = good(&machine.tables);
            if is_good {
                stayed += 1;
            } else {
                broke += 1;
                let lent = lend(&machine.tables, &machine.ram, 1);
                assert_eq!(lent, Lent::BadTables);
            }
            some_call(&mut random, &mut machine);
        }
    }
    assert!(stayed > 100 && broke > 1_000, "{stayed} {broke}");
}

#[test]
fn good_agrees_with_the_plain_sentences() {
    let mut random = Random::new(123, 0);
    let mut goods = 0;
    for _ in 0..400 {
        let started = some_machine(&mut random).tables;
        assert!(good(&started) && plain_good(&started));
        for _ in 0..200 {
            let mut tables = started.clone();
            for _ in 0..=random.below(3) {
                spoil(&mut random, &mut tables);
            }
            assert_eq!(good(&tables), plain_good(&tables), "{tables:?}");
            goods += usize::from(good(&tables));
        }
    }
    assert!(goods > 1_000, "{goods}");
}

#[test]
fn wholly_random_tables() {
    let mut random = Random::new(5, 0);
    for _ in 0..2_000 {
        let mut machine = Machine {
            tables: Tables::default(),
            ram: vec![1; 16_384 * random.below(4)],
            output: vec![2; random.below(100)],
            moved: 0,
        };
        for _ in 0..random.below(200) {
            spoil(&mut random, &mut machine.tables);
        }
        some_call(&mut random, &mut machine);
    }
}
