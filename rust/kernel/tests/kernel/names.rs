//! The grammar of names, seen through open, link and default.

use crate::machine::{Answer, Machine};
use exos_kernel::Call;

fn open(machine: &mut Machine, name: &[u8]) -> Answer {
    let answer = machine.open_named(0, 0, name);
    if answer.0 == 0 {
        machine.close(0);
    }
    answer
}

fn opened(name: &[u8]) -> Answer {
    open(&mut Machine::standard(), name)
}

/// A machine whose default is NET, unit 9.
fn with_default() -> Machine {
    let mut machine = Machine::standard();
    let answer = machine.call(Call::Default {
        unit: 9,
        name: b"nEt",
    });
    assert_eq!(answer, (0, 0, 0));
    machine
}

#[test]
fn devices_and_units() {
    assert_eq!(opened(b"VIDEO:"), (0, 0, 0));
    assert_eq!(opened(b"video:"), (0, 0, 0));
    assert_eq!(opened(b"Keyboard-12:"), (0, 2, 12));
    assert_eq!(opened(b"NET0:"), (0, 1, 0));
    assert_eq!(opened(b"NET255:"), (0, 1, 255));
    assert_eq!(opened(b"NET-255:"), (0, 1, 255));
    assert_eq!(opened(b"NET256:"), (5, 0, 0));
    assert_eq!(opened(b"NET2550:"), (5, 0, 0));
    assert_eq!(opened(b"NET99999999999999999999:"), (5, 0, 0));
    assert_eq!(opened(b"NET-0:"), (0, 1, 0));
    assert_eq!(opened(b"NETS:"), (6, 0, 0));
    assert_eq!(opened(b"NE:"), (6, 0, 0));
}

#[test]
fn leading_zeros() {
    let zeros = "0".repeat(250);
    assert_eq!(opened(format!("NET{zeros}7:").as_bytes()), (0, 1, 7));
    assert_eq!(opened(format!("NET{zeros}77:").as_bytes()), (5, 0, 0));
    assert_eq!(opened(format!("NET{zeros}0:").as_bytes()), (0, 1, 0));
    let zeros = "0".repeat(248);
    assert_eq!(opened(format!("NET{zeros}255:").as_bytes()), (0, 1, 255));
    assert_eq!(opened(format!("NET{zeros}256:").as_bytes()), (5, 0, 0));
}

#[test]
fn what_may_not_stand_before_the_colon() {
    let bad: [&[u8]; 14] = [
        b"NET-:", b"-:", b"NET--1:", b"NET-1-:", b"NET1A:", b"1NET:", b"N T:", b"NET :", b" NET:",
        b"NET-A:", b"NET+1:", b"N.T:", b"NET1-1:", b"\xC9:",
    ];
    for name in bad {
        assert_eq!(opened(name), (5, 0, 0), "{name:?}");
    }
}

#[test]
fn parts_left_out() {
    let mut machine = with_default();
    assert_eq!(open(&mut machine, b""), (0, 1, 9));
    assert_eq!(open(&mut machine, b":"), (0, 1, 9));
    assert_eq!(open(&mut machine, b"FILE"), (0, 1, 9));
    assert_eq!(open(&mut machine, b"VIDEO"), (0, 1, 9));
    assert_eq!(open(&mut machine, b":FILE"), (0, 1, 9));
    assert_eq!(open(&mut machine, b"3:"), (0, 1, 3));
    assert_eq!(open(&mut machine, b"-3:"), (0, 1, 3));
    assert_eq!(open(&mut machine, b"-0:x"), (0, 1, 0));
    assert_eq!(open(&mut machine, b"VIDEO:"), (0, 0, 0));
    assert_eq!(open(&mut machine, b"NET:"), (0, 1, 0));
    assert_eq!(open(&mut machine, b"-"), (0, 1, 9));
    assert_eq!(open(&mut machine, b"NET-1"), (0, 1, 9));
}

#[test]
fn the_empty_default_matches_no_device() {
    for name in [&b""[..], b":", b"FILE", b"3:", b"-3:"] {
        assert_eq!(opened(name), (6, 0, 0));
    }
}

#[test]
fn the_file() {
    let mut machine = with_default();
    for byte in 0..=255u8 {
        let allowed = (0x21..=0x7E).contains(&byte) && byte != b':';
        let after = [b'N', b'E', b'T', b':', b'a', byte];
        assert_eq!(open(&mut machine, &after).0 == 0, allowed, "{byte:x}");
        let alone = [byte];
        let number = if allowed || byte == b':' { 0 } else { 5 };
        assert_eq!(open(&mut machine, &alone).0, number, "{byte:x}");
    }
    assert_eq!(open(&mut machine, &[b'~'; 28]), (0, 1, 9));
    assert_eq!(open(&mut machine, &[b'~'; 29]), (5, 0, 0));
    assert_eq!(
        open(&mut machine, b"VIDEO:1234567890123456789012345678"),
        (0, 0, 0)
    );
    assert_eq!(
        open(&mut machine, b"VIDEO:12345678901234567890123456789"),
        (5, 0, 0)
    );
}

#[test]
fn one_colon_at_most() {
    let mut machine = with_default();
    for name in [&b"::"[..], b"NET::", b"NET:a:", b"NET:VIDEO:"] {
        assert_eq!(open(&mut machine, name), (5, 0, 0));
    }
}

#[test]
fn at_most_255_bytes() {
    let name = |digits: usize| [b"NET".as_slice(), &vec![b'0'; digits], b":x"].concat();
    assert_eq!(name(250).len(), 255);
    assert_eq!(opened(&name(250)), (0, 1, 0));
    assert_eq!(opened(&name(251)), (5, 0, 0));
    assert_eq!(opened(&[b'A'; 70_000]), (5, 0, 0));
}

#[test]
fn names_of_28_and_29_letters() {
    let mut machine = Machine::standard();
    let capitals = [b'Q'; 29];
    assert_eq!(machine.link(0, &capitals[..28]), (0, 3, 11_074));
    assert_eq!(machine.link(0, &capitals), (5, 0, 0));
    let small = [b'q'; 29];
    let name = |count: usize| [&small[..count], b"-5:"].concat();
    assert_eq!(open(&mut machine, &name(28)), (0, 3, 5));
    assert_eq!(open(&mut machine, &name(29)), (5, 0, 0));
    assert_eq!(open(&mut machine, &name(27)), (6, 0, 0));
}

#[test]
fn link_takes_capitals_only() {
    let mut machine = Machine::standard();
    for name in [
        &b""[..],
        b"a",
        b"Ab",
        b"A1",
        b"A-",
        b"A:",
        b"@",
        b"[",
        b"\0",
    ] {
        assert_eq!(machine.link(0, name), (5, 0, 0), "{name:?}");
    }
    assert_eq!(machine.link(0, b"A"), (0, 3, 11_074));
    assert_eq!(machine.link(0, b"Z"), (0, 4, 11_074));
}

#[test]
fn default_takes_letters_and_keeps_capitals() {
    let mut machine = Machine::standard();
    for name in [&b""[..], b"a1", b"A:", b"@", b"[", b"`", b"{", &[b'a'; 29]] {
        let answer = machine.call(Call::Default { unit: 1, name });
        assert_eq!(answer, (5, 0, 0), "{name:?}");
    }
    let name = &[b'z'; 28];
    assert_eq!(machine.call(Call::Default { unit: 255, name }), (0, 0, 0));
    assert_eq!(machine.tables.default.name, [b'Z'; 28]);
    assert_eq!(machine.tables.default.length, 28);
    assert_eq!(machine.tables.default.unit, 255);
    let name = b"vID";
    assert_eq!(machine.call(Call::Default { unit: 0, name }), (0, 0, 0));
    assert_eq!(&machine.tables.default.name[..4], b"VID\0");
    assert_eq!(open(&mut machine, b""), (6, 0, 0));
}

#[test]
fn a_later_device_of_the_same_name_is_meant() {
    let mut machine = with_default();
    machine.open_named(7, 10, b"NET-1:");
    assert_eq!(machine.link(5, b"NET"), (0, 3, 11_069));
    assert!(!machine.tables.devices[1].enabled);
    assert_eq!(machine.tables.channels[0].device, 1);
    assert_eq!(open(&mut machine, b"NET-2:"), (0, 3, 2));
    assert_eq!(open(&mut machine, b":"), (0, 3, 9));
    assert_eq!(machine.link(0, b"NET"), (0, 4, 11_069));
    assert!(!machine.tables.devices[3].enabled);
    assert_eq!(open(&mut machine, b"NET-2:"), (0, 4, 2));
}
