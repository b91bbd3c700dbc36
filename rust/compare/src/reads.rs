//! Cases of reads that leave nothing to chance: around the end of each of several
//! buffers, of each length that tells, into outputs around what is given and
//! around what is asked; and on the longest line, before and after it moves.

use crate::protocol::{Case, Request, IMAGE};
use exos_kernel::{LISTED, SEGMENT};
use std::collections::BTreeSet;
use std::ops::RangeInclusive;

/// R, so that a line soon comes to the edge of 255.
const R: u16 = 256;
/// The lengths n of the buffers of channels 0, 1 and so on: within 255; over its
/// edge; one byte; none; one byte more than the listing program's output.
const BUFFERS: &[u16] = &[100, 300, 1, 0, LISTED as u16 + 1];
/// The same on the longest line, which they fill.
const FAR_BUFFERS: &[u16] = &[MOST, MOST, MOST, MOST, MOST, MOST, MOST, 32_903];
/// A channel that is not open.
const NOT_OPEN: u8 = 9;
/// The most that an n, an offset and a length can be.
const MOST: u16 = 65_535;

/// The case of several buffers.
pub fn reads() -> Case {
    let writes = numbered(BUFFERS).map(|(channel, n)| write(channel, 0, n));
    let reads = numbered(BUFFERS).flat_map(|(channel, n)| reads_of(channel, n));
    let refused = read(0, NOT_OPEN, 0, 1);
    case(253..=255, BUFFERS, writes.chain(reads).chain([refused]))
}

/// The case of the longest line: its buffers are read to their ends, the first
/// is closed, and the others are read again.
pub fn far_reads() -> Case {
    let writes = numbered(FAR_BUFFERS).map(|(channel, n)| write(channel, n - 3, 3));
    let reads = || numbered(FAR_BUFFERS).map(|(channel, n)| read(256, channel, n - 2, 256));
    let long = read(MOST, 6, 1, MOST);
    let close = Request::new(0, 3, &[0]);
    let before = writes.chain(reads()).chain([long.clone(), close]);
    let after = reads().skip(1).chain([long]);
    case(224..=255, FAR_BUFFERS, before.chain(after))
}

/// A start, an open for each buffer, and the calls on them.
fn case(
    list: RangeInclusive<u8>,
    buffers: &'static [u16],
    calls: impl Iterator<Item = Request>,
) -> Case {
    let ram_length = (SEGMENT * list.len()) as u32;
    let body: Vec<u8> = R.to_le_bytes().into_iter().chain(list).collect();
    let start = Request::new(0, 256, &body);
    let opens = numbered(buffers).map(|(channel, n)| open(channel, n));
    Case {
        image: [0; IMAGE],
        ram_length,
        seed: 1,
        requests: [start].into_iter().chain(opens).chain(calls).collect(),
    }
}

/// Each buffer's channel, and its n.
fn numbered(buffers: &'static [u16]) -> impl Iterator<Item = (u8, u16)> {
    (0..).zip(buffers.iter().copied())
}

fn open(channel: u8, n: u16) -> Request {
    let body = [&[channel, 0], &n.to_le_bytes()[..], b"VIDEO:"].concat();
    Request::new(0, 1, &body)
}

/// Bytes that differ from place to place and from channel to channel.
fn write(channel: u8, offset: u16, length: u16) -> Request {
    let [low, high] = offset.to_le_bytes();
    let data = (0..length).map(|at| (at % 239) as u8 + channel + 1);
    let body: Vec<u8> = [channel, low, high].into_iter().chain(data).collect();
    Request::new(0, 8, &body)
}

fn read(output: u16, channel: u8, offset: u16, length: u16) -> Request {
    let [offset, length] = [offset, length].map(u16::to_le_bytes);
    let body = [&[channel][..], &offset, &length].concat();
    Request::new(output.into(), 6, &body)
}

/// The reads of a buffer.
fn reads_of(channel: u8, n: u16) -> impl Iterator<Item = Request> {
    let offsets = BTreeSet::from([0, 1, n.saturating_sub(1), n, n + 1, MOST]);
    offsets.into_iter().flat_map(move |offset| {
        let left = n.saturating_sub(offset);
        let lengths = BTreeSet::from([0, 1, left, left + 1, MOST]);
        lengths.into_iter().flat_map(move |length| {
            let outputs = outputs(length, length.min(left)).into_iter();
            outputs.map(move |output| read(output, channel, offset, length))
        })
    })
}

/// As long as what is given, one short of that, and one short of what is asked.
fn outputs(asked: u16, given: u16) -> BTreeSet<u16> {
    BTreeSet::from([given, given.saturating_sub(1), asked.saturating_sub(1)])
}

#[cfg(test)]
mod tests {
    use super::*;
    use crate::edges::{Edge, ReadEdge};
    use crate::player::Player;

    /// The edges that a case is to meet and does not.
    fn unmet(case: Case, is_of_case: impl Fn(Edge) -> bool) -> Vec<Edge> {
        let counts = Player::of(case).played.counts;
        let unmet = counts.edges().filter(|met| met.1 == 0);
        unmet
            .map(|met| met.0)
            .filter(|&edge| is_of_case(edge))
            .collect()
    }

    #[test]
    fn their_edges_are_met() {
        let is_of_reads = |edge: Edge| match edge {
            // few rows, and short buffers
            Edge::Read(ReadEdge::Row32 | ReadEdge::StopsLongest) => false,
            Edge::Read(_) => true,
            _ => false,
        };
        assert_eq!(unmet(reads(), is_of_reads), []);
        let is_of_far_reads = |edge: Edge| {
            matches!(
                edge,
                Edge::Read(ReadEdge::StopsLongest)
                    | Edge::OpenLimit
                    | Edge::ChainLongest
                    | Edge::WriteFar
                    | Edge::CloseFar
            )
        };
        assert_eq!(unmet(far_reads(), is_of_far_reads), []);
    }

    /// The kinds that a case has refused, with the answers.
    fn refused(case: Case) -> BTreeSet<(Option<u16>, u16)> {
        let played = Player::of(case).played;
        let calls = played.case.requests.iter().zip(&played.replies);
        let answers = calls.map(|(request, reply)| (request.kind(), reply.number));
        answers.filter(|answer| answer.1 != 0).collect()
    }

    #[test]
    fn nothing_but_reads_is_refused() {
        let of_reads = BTreeSet::from([(Some(6), 3), (Some(6), 13)]);
        assert_eq!(refused(reads()), of_reads);
        assert_eq!(refused(far_reads()), BTreeSet::new());
    }
}
