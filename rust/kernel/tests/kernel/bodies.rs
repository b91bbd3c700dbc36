//! Event bodies: fixed fields, and what may follow them.

use exos_kernel::{decode, Call};

/// Kind, the length of its fixed fields, and whether more may follow.
const BODIES: [(u16, usize, bool); 16] = [
    (256, 2, true),
    (0, 1, false),
    (1, 4, true),
    (3, 1, false),
    (6, 5, false),
    (8, 3, true),
    (19, 1, true),
    (20, 0, false),
    (21, 2, true),
    (22, 0, false),
    (23, 2, false),
    (24, 1, false),
    (25, 2, false),
    (30, 4, true),
    (257, 3, true),
    (258, 5, false),
];

#[test]
fn short_whole_and_longer_bodies() {
    for (kind, fixed, more) in BODIES {
        for length in 0..12 {
            let body = vec![0; length];
            let fits = length == fixed || (more && length > fixed);
            let known = decode(kind, &body) != Call::Unknown { kind };
            assert_eq!(known, fits, "{kind} {length}");
        }
    }
}

#[test]
fn other_kinds_are_unknown() {
    let known = BODIES.map(|(kind, _, _)| kind);
    for kind in (0..=65_535).filter(|kind| !known.contains(kind)) {
        for length in 0..6 {
            assert_eq!(decode(kind, &vec![0; length]), Call::Unknown { kind });
        }
    }
}

#[test]
fn fields_in_their_order() {
    let body = [1, 2, 3, 4, 5];
    let (r, list) = (0x0201, &body[2..]);
    assert_eq!(decode(256, &body), Call::Start { r, list });
    let open = Call::Open {
        channel: 1,
        driver_status: 2,
        n: 0x0403,
        name: &[5],
    };
    assert_eq!(decode(1, &body), open);
    let (offset, length) = (0x0302, 0x0504);
    let read = Call::Read {
        channel: 1,
        offset,
        length,
    };
    assert_eq!(decode(6, &body), read);
    let load = Call::Load {
        segment: 1,
        offset,
        length,
    };
    assert_eq!(decode(258, &body), load);
    let data = &body[3..];
    let write = Call::Write {
        channel: 1,
        offset,
        data,
    };
    assert_eq!(decode(8, &body), write);
    let store = Call::Store {
        segment: 1,
        offset,
        data,
    };
    assert_eq!(decode(257, &body), store);
    let load_module = Call::LoadModule {
        segment: 1,
        page: 2,
        offset: 0x0403,
        stream: &[5],
    };
    assert_eq!(decode(30, &body), load_module);
    let (unit, name) = (1, &body[1..]);
    assert_eq!(decode(19, &body), Call::Default { unit, name });
    let (m, name) = (0x0201, &body[2..]);
    assert_eq!(decode(21, &body), Call::Link { m, name });
}

#[test]
fn short_fields_in_their_order() {
    assert_eq!(decode(0, &[9]), Call::Reset { flags: 9 });
    assert_eq!(decode(3, &[9]), Call::Close { channel: 9 });
    assert_eq!(decode(20, &[]), Call::Status);
    assert_eq!(decode(22, &[]), Call::Boundary);
    let value = 0x0809;
    assert_eq!(decode(23, &[9, 8]), Call::SetUserBoundary { value });
    assert_eq!(decode(24, &[2]), Call::Allocate { caller: 2 });
    let (caller, segment) = (1, 200);
    assert_eq!(decode(25, &[1, 200]), Call::Free { caller, segment });
}
