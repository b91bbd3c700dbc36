//! Cases of opens that are closed again at once, which leave nothing to chance:
//! with lines up to each edge, on bytes that were not zero, with a segment shared,
//! with every device and name, in the last row, and on the longest line.

use crate::planned::{
    allocate, case_of, close, filled, free, link, open, open_named, reset, set_user_boundary,
    store, DEVICE, USER,
};
use crate::protocol::{Case, Request};
use exos_kernel::{HEADING, SEGMENT};
use std::iter;
use std::ops::RangeInclusive;

/// The cases.
pub const AGAIN: [fn() -> Case; 7] = [lines, devices, stored, not_falling, shared, rows, far];

/// R when the opens come, so that a line soon comes to the edge of 255.
const R: usize = 256;
/// The channel that is opened and closed again.
const CHANNEL: u8 = 200;

/// With no channel before, with one that ends just above 255's edge, and with
/// another behind it in the next segment.
fn lines() -> Case {
    let ends = || ends(3);
    let first = agains(0, ends());
    let second = kept(1, 0, 250).chain(agains(250, ends()));
    let third = kept(2, 250, 300).chain(agains(300, ends()));
    case(251..=255, first.chain(second).chain(third))
}

/// With a lower R, and with each way to name a device.
fn devices() -> Case {
    let linked = [link(40, b"DISK"), link(0, b"NET")];
    let default = Request::new(0, 19, b"\x07DISK");
    let names: [&[u8]; 10] = [
        b"VIDEO:",
        b"net255:",
        b"KEYBOARD-1:",
        b"DISK5:",
        b"Disk-9:a.b",
        b"",
        b":",
        b"-3:",
        b"8:x",
        b"x",
    ];
    let named = names
        .into_iter()
        .flat_map(|name| [open_named(CHANNEL, 300, name), close(CHANNEL)]);
    let calls = linked
        .into_iter()
        .chain(agains(0, ends(2)))
        .chain([default])
        .chain(named);
    case_of(R + 40, 252..=255, calls)
}

/// On segments that the user stored to and gave back.
fn stored() -> Case {
    let taken = [253, 254].map(|segment| [allocate(USER), store(segment, 0, SEGMENT)]);
    let given_back = [253, 254].map(|segment| free(USER, segment));
    let calls = taken
        .into_iter()
        .flatten()
        .chain(given_back)
        .chain(agains(0, ends(2)));
    case(252..=255, calls)
}

/// With a chain that takes a segment above its last.
fn not_falling() -> Case {
    let taken = [allocate(DEVICE), allocate(DEVICE), free(DEVICE, 253)];
    let calls = taken
        .into_iter()
        .chain(kept(1, 0, 300))
        .chain([free(DEVICE, 254)])
        .chain(agains(300, ends(2)));
    case(252..=255, calls)
}

/// With 255 shared, then with 254 shared and 253 free; both on bytes that the user
/// stored.
fn shared() -> Case {
    let taken = [allocate(USER), allocate(USER), allocate(USER)];
    let of_255 = [store(255, 0, R), set_user_boundary(100)];
    let reset = [reset(0x70)];
    let of_254 = [
        allocate(USER),
        allocate(USER),
        store(254, 16_000, 324),
        set_user_boundary(16_000),
        free(USER, 253),
    ];
    let calls = taken
        .into_iter()
        .chain(of_255)
        .chain(agains(0, [17, 155, 156]))
        .chain(kept(1, 0, 40))
        .chain(agains(40, [155, 156]))
        .chain(reset)
        .chain(kept(1, 0, 316))
        .chain(of_254)
        .chain(agains(316, [333, 639, 640]));
    case(252..=255, calls)
}

/// In the last row of channels.
fn rows() -> Case {
    let opens = (0..31).map(|channel| open(channel, HEADING));
    case(253..=255, opens.chain(agains(31 * HEADING, ends(1))))
}

/// The longest buffer, and the longest line.
fn far() -> Case {
    let longest = HEADING + 65_535;
    let opens = (0..7).map(|channel| open(channel, longest));
    let limit = R + 30 * SEGMENT;
    let calls = agains(0, [longest])
        .chain(opens)
        .chain(agains(7 * longest, [limit]));
    case(224..=255, calls)
}

/// Where a line is to end in a chain of 255 and so many segments: at R, one beyond,
/// and so at each segment's end; beyond the last there is no room.
fn ends(segments: usize) -> impl Iterator<Item = usize> {
    let at = (0..=segments).map(|segment| R + SEGMENT * segment);
    let around = at.flat_map(|end| [end, end + 1]);
    around.take(2 * segments + 1)
}

/// Opens that bring a line of T bytes to each of these ends, each closed again;
/// and one with n 0.
fn agains(t: usize, ends: impl IntoIterator<Item = usize>) -> impl Iterator<Item = Request> {
    let lengths = ends.into_iter().filter_map(move |end| end.checked_sub(t));
    let lengths = iter::once(HEADING).chain(lengths.filter(|&length| length >= HEADING));
    lengths.flat_map(|length| [open(CHANNEL, length), close(CHANNEL)])
}

/// An open that brings a line of T bytes to an end, with its buffer written.
fn kept(channel: u8, t: usize, end: usize) -> impl Iterator<Item = Request> {
    filled(channel, end - t)
}

/// A start and the calls that follow.
fn case(list: RangeInclusive<u8>, calls: impl Iterator<Item = Request>) -> Case {
    case_of(R, list, calls)
}

#[cfg(test)]
mod tests {
    use super::*;
    use crate::counts::Counts;
    use crate::edges::{all_again_edges, Edge};
    use crate::player::{Played, Player};

    fn played() -> impl Iterator<Item = Played> {
        AGAIN.iter().map(|case| Player::of(case()).played)
    }

    #[test]
    fn every_edge_is_met() {
        let mut counts = Counts::new();
        played().for_each(|played| counts.join(&played.counts));
        let met: Vec<_> = counts
            .edges()
            .filter_map(|(edge, count)| match edge {
                Edge::Again(edge) if count > 0 => Some(edge),
                _ => None,
            })
            .collect();
        assert_eq!(met, all_again_edges().collect::<Vec<_>>());
    }

    #[test]
    fn with_a_call_between_no_edge_is_met() {
        for case in AGAIN {
            let mut case = case();
            let boundary = Request::new(0, 22, &[]);
            let calls = case.requests.into_iter();
            case.requests = calls.flat_map(|call| [call, boundary.clone()]).collect();
            let counts = Player::of(case).played.counts;
            let mut met = counts.edges().filter(|met| met.1 > 0);
            assert!(!met.any(|met| matches!(met.0, Edge::Again(_))));
        }
    }

    #[test]
    fn nothing_is_refused_and_no_mark_is_left() {
        for played in played() {
            let requests = played.case.requests.iter();
            for (request, reply) in requests.zip(&played.replies) {
                let is_share = request.kind() == Some(24) && reply.number == 17;
                assert!(reply.number == 0 || is_share, "{request:?} {reply:?}");
                assert_eq!(reply.fault, None);
            }
        }
    }
}
