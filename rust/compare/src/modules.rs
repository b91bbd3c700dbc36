//! A case of modules that leaves nothing to chance: cut after each bit of each
//! item, padded by each number of bits, right and with each of them wrong, long,
//! with two faults in either order, and at starts that chance seldom finds.

use crate::edges::ram_length_for;
use crate::protocol::{image_of, Case, Request};
use exos_kernel::SEGMENT;
use exos_modules::{byte, cut, move_by, padded, stream, word};
use exos_modules::{Item, What, END, ILLEGAL};
use exos_sentences::tables;

/// Segments of [`tables`].
const PAGE_ZERO: u8 = 250;
const DEVICE: u8 = 253;
const SHARED: u8 = 254;

/// Where a module starts if it does not matter.
const START_PAGE: u8 = 1;
const START_OFFSET: u16 = 512;

/// The case.
pub fn modules() -> Case {
    let tables = tables();
    let ends = cuts().chain(paddings()).chain([long()]);
    let ends = ends.map(|stream| load(PAGE_ZERO, &stream));
    let guarded = two_faults(PAGE_ZERO, 0x30);
    let bounded = two_faults(SHARED, tables.user_boundary);
    Case {
        image: image_of(&tables),
        ram_length: ram_length_for(&tables) as u32,
        seed: 1,
        requests: ends
            .chain(guarded)
            .chain(bounded)
            .chain(seldom(tables.user_boundary))
            .collect(),
    }
}

fn load(segment: u8, stream: &[u8]) -> Request {
    load_at(segment, START_PAGE, START_OFFSET, stream)
}

fn load_at(segment: u8, page: u8, offset: u16, stream: &[u8]) -> Request {
    let [low, high] = offset.to_le_bytes();
    let start = [segment, page, low, high];
    Request::new(0, 30, &[&start, stream].concat())
}

fn cuts() -> impl Iterator<Item = Vec<u8>> {
    What::LEGAL.into_iter().flat_map(|what| {
        let item = Item { what, value: 0 };
        (0..what.length()).map(move |bits| cut(&[byte(1)], item, bits))
    })
}

fn paddings() -> impl Iterator<Item = Vec<u8>> {
    (0..8).flat_map(|length| {
        // the bit after the last is none
        (0..=length).map(move |wrong| {
            let padding: Vec<bool> = (0..length).map(|bit| bit == wrong).collect();
            padded(&[byte(wrong as u8)], &padding)
        })
    })
}

fn long() -> Vec<u8> {
    padded(&[byte(9), word(9)].repeat(1_150), &[])
}

/// Every two of: a byte where none may be stored, a move out of the page, an
/// illegal item.
fn two_faults(segment: u8, forbidden: u16) -> impl Iterator<Item = Request> {
    let there = move_by(forbidden.wrapping_sub(START_OFFSET));
    let faults = [vec![there, byte(1)], vec![move_by(0x8000)], vec![ILLEGAL]];
    let pairs = (0..9).map(move |row| [&faults[row / 3][..], &faults[row % 3], &[END]].concat());
    pairs.map(move |items| load(segment, &stream(&items)))
}

/// Stores just past the page where the call is refused before all items, a move
/// back from there, and words at the guard and at the user boundary, which in
/// the end is 0.
fn seldom(user_boundary: u16) -> [Request; 10] {
    const PAST: u16 = SEGMENT as u16;
    let a_byte = stream(&[byte(1), END]);
    let a_word = stream(&[word(1), END]);
    [
        load_at(DEVICE, 0, PAST, &a_byte),
        load_at(PAGE_ZERO, 4, PAST, &a_byte),
        load_at(PAGE_ZERO, 4, 0x30, &a_byte),
        load_at(SHARED, 4, user_boundary, &a_byte),
        load_at(PAGE_ZERO, 3, PAST, &stream(&[move_by(0xFFFF), END])),
        load_at(PAGE_ZERO, 0, 0x30, &a_word),
        load_at(PAGE_ZERO, 0, 0x3F, &a_word),
        load_at(SHARED, 0, user_boundary, &a_word),
        Request::new(0, 23, &[0, 0]),
        load_at(SHARED, 0, 0, &a_byte),
    ]
}

#[cfg(test)]
mod tests {
    use super::*;
    use crate::edges::{Edge, ModuleEdge};
    use crate::player::Player;

    /// Whether the case is to meet an edge.
    fn is_of_case(edge: Edge) -> bool {
        match edge {
            Edge::Both(30, 2, 13 | 14 | 20) | Edge::Both(30, 11, 20) => true,
            Edge::Module(edge) => matches!(
                edge,
                ModuleEdge::Cut(..)
                    | ModuleEdge::Padding(_)
                    | ModuleEdge::BadPadding(..)
                    | ModuleEdge::Long
                    | ModuleEdge::Then(..)
                    | ModuleEdge::MoveBackCarry
                    | ModuleEdge::Guard(What::Word, 0x30 | 0x3F, _)
                    | ModuleEdge::BoundaryWordPast
                    | ModuleEdge::BoundaryZero
            ),
            _ => false,
        }
    }

    #[test]
    fn its_edges_are_met() {
        let counts = Player::of(modules()).played.counts;
        let of_case = counts.edges().filter(|&(edge, _)| is_of_case(edge));
        let unmet: Vec<_> = of_case.filter(|&(_, count)| count == 0).collect();
        assert_eq!(unmet, []);
    }
}
