//! Event records: "length in 2 bytes counting kind and body (2 to 4,096), kind
//! in 2 bytes, body. Numbers are little-endian."

use crate::calls::{Call, START};
use std::io::{self, ErrorKind, Read};

/// The most that a record's length may be.
const LONGEST: usize = 4_096;

/// The call of a kind and body; [`Call::Unknown`] where the kind is unknown or
/// the body is "short of its fixed fields, or longer without name, data or
/// list".
pub fn decode(kind: u16, body: &[u8]) -> Call<'_> {
    match (kind, body) {
        (START, &[r0, r1, ref list @ ..]) => Call::Start {
            r: word(r0, r1),
            list,
        },
        (0, &[flags]) => Call::Reset { flags },
        (1, &[channel, driver_status, n0, n1, ref name @ ..]) => Call::Open {
            channel,
            driver_status,
            n: word(n0, n1),
            name,
        },
        (3, &[channel]) => Call::Close { channel },
        (6, &[channel, o0, o1, l0, l1]) => Call::Read {
            channel,
            offset: word(o0, o1),
            length: word(l0, l1),
        },
        (8, &[channel, o0, o1, ref data @ ..]) => Call::Write {
            channel,
            offset: word(o0, o1),
            data,
        },
        (19, &[unit, ref name @ ..]) => Call::Default { unit, name },
        (20, []) => Call::Status,
        (21, &[m0, m1, ref name @ ..]) => Call::Link {
            m: word(m0, m1),
            name,
        },
        (22, []) => Call::Boundary,
        (23, &[v0, v1]) => Call::SetUserBoundary {
            value: word(v0, v1),
        },
        (24, &[caller]) => Call::Allocate { caller },
        (25, &[caller, segment]) => Call::Free { caller, segment },
        (30, &[segment, page, o0, o1, ref stream @ ..]) => Call::LoadModule {
            segment,
            page,
            offset: word(o0, o1),
            stream,
        },
        (257, &[segment, o0, o1, ref data @ ..]) => Call::Store {
            segment,
            offset: word(o0, o1),
            data,
        },
        (258, &[segment, o0, o1, l0, l1]) => Call::Load {
            segment,
            offset: word(o0, o1),
            length: word(l0, l1),
        },
        _ => Call::Unknown { kind },
    }
}

fn word(low: u8, high: u8) -> u16 {
    u16::from_le_bytes([low, high])
}

/// What stands next in the input.
pub(crate) enum Record<'a> {
    /// A whole record.
    Whole { kind: u16, body: &'a [u8] },
    /// "A bad length or cut record."
    Bad,
    /// Nothing.
    End,
}

/// Reads records into a space of its own.
pub(crate) struct Records<R> {
    input: R,
    space: [u8; LONGEST],
}

impl<R: Read> Records<R> {
    pub(crate) fn new(input: R) -> Self {
        Records {
            input,
            space: [0; LONGEST],
        }
    }

    pub(crate) fn next(&mut self) -> io::Result<Record<'_>> {
        let mut length = [0; 2];
        match fill(&mut self.input, &mut length)? {
            0 => return Ok(Record::End),
            1 => return Ok(Record::Bad),
            _ => {}
        }
        let length = usize::from(u16::from_le_bytes(length));
        if !(2..=LONGEST).contains(&length) {
            return Ok(Record::Bad);
        }
        let space = &mut self.space[..length];
        if fill(&mut self.input, space)? < length {
            return Ok(Record::Bad);
        }
        Ok(Record::Whole {
            kind: word(space[0], space[1]),
            body: &space[2..],
        })
    }
}

/// Reads until the bytes are full or the input ends; how many were read.
fn fill(input: &mut impl Read, bytes: &mut [u8]) -> io::Result<usize> {
    let mut read = 0;
    while read < bytes.len() {
        match input.read(&mut bytes[read..]) {
            Ok(0) => break,
            Ok(more) => read += more,
            Err(error) if error.kind() == ErrorKind::Interrupted => {}
            Err(error) => return Err(error),
        }
    }
    Ok(read)
}
