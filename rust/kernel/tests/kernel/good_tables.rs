//! Each sentence on good tables, kept up to its edge and broken on its own.

use crate::machine::Machine;
use crate::plain_good::plain_good;
use exos_kernel::{decode, good, Call};
use exos_sentences::{changed, tables, BROKEN, CALLS, KEPT};

/// Calls that lead to the tables that are changed below.
fn base() -> Machine {
    let mut machine = Machine::start(1_000, &[250, 251, 252, 253, 254, 255]);
    machine.open(1, 500);
    machine.link(100, b"NET");
    machine.link(0, b"DISK");
    machine.call(Call::Default {
        unit: 4,
        name: b"NET",
    });
    for _ in 0..3 {
        machine.allocate(0);
    }
    machine.open(2, 1_000);
    machine.free(0, 253);
    machine.allocate(1);
    assert_eq!(machine.allocate(0).0, 17);
    machine.free(0, 251);
    machine.set_boundary(9_000);
    assert_eq!(machine.status(), [1, 1, 1, 1, 1]);
    machine
}

#[test]
fn calls_lead_to_the_tables() {
    assert_eq!(base().tables, tables());
}

#[test]
fn tables_that_keep_a_sentence_are_good() {
    for change in KEPT {
        let tables = changed(change);
        assert!(good(&tables) && plain_good(&tables), "{}", change.0);
    }
}

#[test]
fn tables_that_break_a_sentence_are_refused_by_every_kind() {
    let base = base();
    for change in BROKEN {
        let mut machine = base.clone();
        machine.tables = changed(change);
        let is_good = good(&machine.tables) || plain_good(&machine.tables);
        assert!(!is_good, "{}", change.0);
        let segments = usize::from(machine.tables.segments);
        machine.ram.resize(segments * 16_384, 0);
        for (kind, body) in CALLS {
            let answer = machine.call(decode(kind, body));
            assert_eq!(answer, (1, 0, 0), "{} {kind}", change.0);
        }
    }
}

#[test]
fn every_kind_is_answered_on_good_tables() {
    for (kind, body) in CALLS {
        let number = if kind == 999 { 2 } else { 0 };
        assert_eq!(base().call(decode(kind, body)).0, number, "{kind}");
    }
}

#[test]
fn start_takes_any_tables() {
    for change in BROKEN {
        let mut machine = base();
        machine.tables = changed(change);
        let list = [250, 251, 252, 253, 254, 255];
        let answer = machine.call(Call::Start {
            r: 500,
            list: &list,
        });
        assert_eq!(answer, (0, 6, 500));
    }
}

#[test]
fn thirty_two_segments_all_in_the_chain() {
    let list: Vec<u8> = (224..=255).collect();
    let mut machine = Machine::start(16_128, &list);
    for number in 0..7 {
        assert_eq!(machine.open(number, 65_535), (0, 0, 0));
    }
    let room = (16_128 + 30 * 16_384 - 7 * 65_551u32) as u16;
    assert_eq!(machine.open(7, room - 16 + 1), (9, 0, 0));
    assert_eq!(machine.open(7, room - 16), (0, 0, 0));
    assert_eq!(machine.chain().len(), 31);
    assert_eq!(machine.boundary(), (0, 225, 0));
}
