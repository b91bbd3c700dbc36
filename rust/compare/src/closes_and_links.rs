//! Cases of closes and links that leave nothing to chance: of each of 32 rows, under
//! lines up to each edge, with a segment shared, on the longest line; and of calls
//! that move nothing.

use crate::planned::{
    allocate, case_of, close, filled, link, open, reset, set_user_boundary, start, USER,
};
use crate::protocol::{image_of, Case, Request};
use exos_kernel::{Tables, HEADING, MOST_R, SEGMENT};
use exos_sentences::{tables, CALLS};
use std::iter;

/// The cases.
pub const CLOSES_AND_LINKS: [fn() -> Case; 9] = [
    rows, lines, refused, resets, others, bad_tables, wrong_ram, shared, far,
];

/// The cold R, so that a line soon comes to the edge of 255.
const R: usize = 300;
/// What links take of it.
const M: u16 = 10;
/// The output that is lent: enough for a status.
const OUTPUT: usize = 8;

/// A close in a middle row, in the first and in the last of 32, then of all that are
/// left.
fn rows() -> Case {
    let opens = (0..32).flat_map(|channel| filled(channel, 2 * HEADING + usize::from(channel)));
    let closes = [
        close(15),
        open(40, HEADING),
        close(0),
        close(40),
        close(15),
        close(255),
    ];
    let left = (1..32).filter(|&channel| channel != 15).map(close);
    case_of(R, 252..=255, opens.chain(closes).chain(left))
}

/// Links with no channel open, and under lines that end around R, around the new R,
/// and so around the ends of further segments.
fn lines() -> Case {
    let further = (0..3).map(|segment| R + SEGMENT * segment);
    let edges = further.flat_map(|end| [end - usize::from(M), end]);
    let ends = edges.flat_map(|end| [end - 1, end, end + 1]);
    let none_open = [link(0, b"A"), link(M, b"A"), reset(0x20)];
    let calls = none_open.into_iter().chain(ends.flat_map(linked));
    case_of(R, 251..=255, calls)
}

/// A line of T bytes, links under it, a close, and all as it was.
fn linked(t: usize) -> impl Iterator<Item = Request> {
    let first = 100;
    let links = [link(0, b"A"), link(M, b"B"), close(1), reset(0x20)];
    filled(1, first).chain(filled(2, t - first)).chain(links)
}

/// Three records of so many bytes.
fn three(length: usize) -> impl Iterator<Item = Request> {
    (1..4).flat_map(move |channel| filled(channel, length))
}

/// Closes and links that are refused while channels are open.
fn refused() -> Case {
    let below_least = R as u16 - 255;
    let limit = R + SEGMENT;
    let first = [
        close(9),
        close(255),
        link(M, b""),
        link(M, b"a"),
        link(below_least, b"A"),
        open(4, limit - 300),
        link(1, b"A"),
        close(4),
    ];
    let devices = (3..16).map(|_| link(0, b"A"));
    let calls = three(100)
        .chain(first)
        .chain(devices)
        .chain([link(M, b"A")]);
    case_of(R, 253..=255, calls)
}

/// Every reset with channels open and R below the cold R.
fn resets() -> Case {
    let flags = (0..8).map(|bits| bits << 4);
    let calls = flags.flat_map(|flags| {
        let resets = [link(M, b"A"), reset(flags), reset(0x70)];
        three(150).chain(resets)
    });
    case_of(R, 252..=255, calls)
}

/// Every other kind, done with channels open.
fn others() -> Case {
    let others = CALLS
        .into_iter()
        .filter(|call| !matches!(call.0, 0 | 3 | 21 | 999))
        .map(|(kind, body)| Request::new(OUTPUT, kind, body));
    case_on(&tables(), 0, others.chain([start(R, 250..=255)]))
}

/// Tables that are not good.
fn bad_tables() -> Case {
    let mut tables = tables();
    tables.cold_r = 0;
    case_on(&tables, 0, [close(1), link(M, b"A")])
}

/// Good tables, with a byte of RAM too many.
fn wrong_ram() -> Case {
    case_on(&tables(), 1, [close(1), link(M, b"A")])
}

/// With 255 shared; then with 254 shared, which a close gives to the user.
fn shared() -> Case {
    let taken = || iter::repeat_with(|| allocate(USER));
    let of_255 = [set_user_boundary(100), link(M, b"A"), close(1), reset(0x70)];
    let of_254 = [
        set_user_boundary(16_000),
        link(M, b"A"),
        close(1),
        close(2),
        close(3),
    ];
    let calls = three(50)
        .chain(taken().take(3))
        .chain(of_255)
        .chain(three(150))
        .chain(taken().take(2))
        .chain(of_254);
    case_of(R, 252..=255, calls)
}

/// The longest line with a close, and one byte less with a link.
fn far() -> Case {
    let (list, r) = (224..=255, usize::from(MOST_R));
    let most = r + 30 * SEGMENT;
    let closed = longest(most).chain([link(0, b"A"), close(0)]);
    let linked = longest(most - 1).chain([link(1, b"A"), close(0)]);
    let calls = closed.chain([start(r, list.clone())]).chain(linked);
    case_of(r, list, calls)
}

/// A line of T bytes: the least record, seven of the longest, and one for the rest.
fn longest(t: usize) -> impl Iterator<Item = Request> {
    let length = HEADING + 65_535;
    let opens = (1..8).map(move |channel| open(channel, length));
    let rest = filled(8, t - HEADING - 7 * length);
    iter::once(open(0, HEADING)).chain(opens).chain(rest)
}

/// Calls on tables, with so many bytes of RAM more than they ask for.
fn case_on(tables: &Tables, more: usize, calls: impl IntoIterator<Item = Request>) -> Case {
    Case {
        image: image_of(tables),
        ram_length: (SEGMENT * usize::from(tables.segments) + more) as u32,
        seed: 1,
        requests: calls.into_iter().collect(),
    }
}

#[cfg(test)]
mod tests {
    use super::*;
    use crate::counts::Counts;
    use crate::edges::{all_moved_edges, Edge};
    use crate::player::{Played, Player};
    use std::collections::BTreeSet;

    fn played() -> impl Iterator<Item = Played> {
        CLOSES_AND_LINKS
            .iter()
            .map(|case| Player::of(case()).played)
    }

    #[test]
    fn every_edge_is_met() {
        let mut counts = Counts::new();
        played().for_each(|played| counts.join(&played.counts));
        let met: Vec<_> = counts
            .edges()
            .filter_map(|(edge, count)| match edge {
                Edge::Moved(edge) if count > 0 => Some(edge),
                _ => None,
            })
            .collect();
        assert_eq!(met, all_moved_edges().collect::<Vec<_>>());
    }

    #[test]
    fn nothing_is_refused_but_what_is_to_be() {
        let mut refused = BTreeSet::new();
        for played in played() {
            let calls = played.case.requests.iter().zip(&played.replies);
            for (request, reply) in calls {
                assert_eq!(reply.fault, None, "{request:?}");
                if !matches!(reply.number, 0 | 17) {
                    refused.insert((request.kind(), reply.number));
                }
            }
        }
        let closes = [1, 3].map(|number| (Some(3), number));
        let links = [1, 5, 8, 9].map(|number| (Some(21), number));
        let refused: Vec<_> = refused.into_iter().collect();
        assert_eq!(refused, [&closes[..], &links[..]].concat());
    }

    /// The numbers of a case that are not 0.
    fn moved(case: fn() -> Case) -> Vec<u32> {
        let replies = Player::of(case()).played.replies;
        let moved = replies.iter().map(|reply| reply.moved);
        moved.filter(|&moved| moved > 0).collect()
    }

    #[test]
    fn numbers_by_hand() {
        assert_eq!(moved(far), [507_632, 507_647, 507_631]);
        assert_eq!(moved(shared), [150, 100, 450, 300, 150]);
        let line = |t| [t, t - 100];
        let around = |end: u32| [end - 1, end, end + 1].map(line);
        let ends = [290, 300, 16_674, 16_684, 33_058, 33_068];
        assert_eq!(moved(lines), ends.map(around).concat().concat());
    }
}
