//! What cases that leave nothing to chance are made of: a start, and calls by their
//! arguments.

use crate::protocol::{Case, Request, IMAGE};
use exos_kernel::{HEADING, SEGMENT};
use std::iter;
use std::ops::RangeInclusive;

/// The user as caller of allocate and free.
pub const USER: u8 = 0;
/// A device as caller of allocate and free.
pub const DEVICE: u8 = 1;

/// A start and the calls that follow.
pub fn case_of(
    cold_r: usize,
    list: RangeInclusive<u8>,
    calls: impl IntoIterator<Item = Request>,
) -> Case {
    let first = start(cold_r, list.clone());
    Case {
        image: [0; IMAGE],
        ram_length: (SEGMENT * list.len()) as u32,
        seed: 1,
        requests: iter::once(first).chain(calls).collect(),
    }
}

/// A start.
pub fn start(cold_r: usize, list: RangeInclusive<u8>) -> Request {
    let r = (cold_r as u16).to_le_bytes();
    let body: Vec<u8> = r.into_iter().chain(list).collect();
    Request::new(0, 256, &body)
}

/// A reset.
pub fn reset(flags: u8) -> Request {
    Request::new(0, 0, &[flags])
}

/// An open whose record has so many bytes.
pub fn open(channel: u8, length: usize) -> Request {
    open_named(channel, length, b"VIDEO:")
}

/// The same by a name.
pub fn open_named(channel: u8, length: usize, name: &[u8]) -> Request {
    let [low, high] = ((length - HEADING) as u16).to_le_bytes();
    Request::new(0, 1, &[&[channel, 0, low, high], name].concat())
}

/// An open whose record has so many bytes, and a write of its buffer.
pub fn filled(channel: u8, length: usize) -> impl Iterator<Item = Request> {
    let written = [&[channel, 0, 0], &bytes(length - HEADING)[..]].concat();
    [open(channel, length), Request::new(0, 8, &written)].into_iter()
}

/// A close.
pub fn close(channel: u8) -> Request {
    Request::new(0, 3, &[channel])
}

/// A link.
pub fn link(m: u16, name: &[u8]) -> Request {
    Request::new(0, 21, &[&m.to_le_bytes(), name].concat())
}

/// An allocate.
pub fn allocate(caller: u8) -> Request {
    Request::new(0, 24, &[caller])
}

/// A free.
pub fn free(caller: u8, segment: u8) -> Request {
    Request::new(0, 25, &[caller, segment])
}

/// A set user boundary.
pub fn set_user_boundary(value: u16) -> Request {
    Request::new(0, 23, &value.to_le_bytes())
}

/// A store of so many bytes.
pub fn store(segment: u8, offset: u16, length: usize) -> Request {
    let [low, high] = offset.to_le_bytes();
    let body = [&[segment, low, high], &bytes(length)[..]].concat();
    Request::new(0, 257, &body)
}

/// Bytes that differ from place to place, none of them zero.
fn bytes(length: usize) -> Vec<u8> {
    (0..length).map(|at| (at % 239) as u8 + 1).collect()
}
