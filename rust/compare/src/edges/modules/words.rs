//! The edges of load module in words.

use crate::edges::naming::name_edges;
use exos_modules::What;
use std::fmt::{self, Display, Formatter};

/// Stores around the guarded bytes of page zero, and the answer.
pub(super) const GUARD: &[(What, usize, u16)] = &[
    (What::Byte, 0x2F, 0),
    (What::Byte, 0x30, 14),
    (What::Byte, 0x3C, 14),
    (What::Byte, 0x3D, 0),
    (What::Byte, 0x3E, 0),
    (What::Byte, 0x3F, 14),
    (What::Byte, 0x5B, 14),
    (What::Byte, 0x5C, 0),
    (What::Word, 0x2E, 0),
    (What::Word, 0x2F, 14),
    (What::Word, 0x30, 14),
    (What::Word, 0x3C, 14),
    (What::Word, 0x3D, 0),
    (What::Word, 0x3E, 14),
    (What::Word, 0x3F, 14),
    (What::Word, 0x5B, 14),
    (What::Word, 0x5C, 0),
];

/// The refusals of items.
const OF_ITEMS: [u16; 4] = [19, 20, 13, 14];

/// Every edge of load module.
pub fn all_module_edges() -> impl Iterator<Item = ModuleEdge> {
    let cuts = What::LEGAL.into_iter().flat_map(|what| {
        let bits = 1..what.length();
        bits.map(move |bits| ModuleEdge::Cut(what, bits))
    });
    let guard = GUARD.iter();
    let paddings = (0..8).flat_map(|length| {
        let wrong = (0..length).map(move |bit| ModuleEdge::BadPadding(length, bit));
        wrong.chain([ModuleEdge::Padding(length)])
    });
    let before_end = What::ALL.into_iter().filter(|what| !what.is_last());
    NAMED
        .iter()
        .copied()
        .chain(What::ALL.into_iter().map(ModuleEdge::First))
        .chain(before_end.map(ModuleEdge::Last))
        .chain(cuts)
        .chain(paddings)
        .chain(guard.map(|&(what, at, answer)| ModuleEdge::Guard(what, at, answer)))
        .chain(OF_ITEMS.into_iter().map(ModuleEdge::AfterStore))
        .chain(thens())
}

/// Each refusal of an item before each other. No segment has a guard and a
/// user boundary.
fn thens() -> impl Iterator<Item = ModuleEdge> {
    let pairs = OF_ITEMS
        .into_iter()
        .flat_map(|first| OF_ITEMS.map(|later| (first, later)));
    pairs
        .filter(|pair| pair.0 != pair.1 && !matches!(pair, (13, 14) | (14, 13)))
        .map(|(first, later)| ModuleEdge::Then(first, later))
}

/// An answer behind an edge; none where it is done.
fn answered(answer: u16) -> String {
    match answer {
        0 => String::new(),
        _ => format!(": {answer}"),
    }
}

name_edges! {
    /// An edge that load module can meet.
    ModuleEdge {
        /// An item that comes first.
        First(what: What) {
            let answer = if what == What::Illegal { 19 } else { 0 };
            format!("first {what}{}", answered(answer))
        };
        /// An item just before the end item.
        Last(what: What) format!("last {what}");
        /// An item of which so many bits are there.
        Cut(what: What, bits: usize) format!("cut after bit {bits} of {what}: 19");
        /// Padding of so many bits.
        Padding(length: usize) format!("{length} bits of padding");
        /// Padding of so many bits, of which one is wrong.
        BadPadding(length: usize, bit: usize) {
            format!("{length} bits of padding, bit {bit} of it wrong: 19")
        };
        /// A store at an offset of page zero, and its answer.
        Guard(what: What, at: usize, answer: u16) {
            format!("{what} at {at:02X}h of page zero{}", answered(answer))
        };
        /// A refusal of an item, after one that stores.
        AfterStore(refusal: u16) format!("a store before an item at fault: {refusal}");
        /// A refusal of an item, and another of a later one.
        Then(first: u16, later: u16) format!("{first}, then {later}: {first}");
    }

    ShortBody "a body of 3 bytes: 2"
    LastPage "start page 3"
    PastPage "start page 4: 2"
    LastOffset "start offset 16,384"
    PastOffset "start offset 16,385: 2"
    PageZero "a store in the page zero segment"
    User "a store in a user segment"
    Shared "a store in a shared segment"
    Free "a free segment: 11"
    System "a system segment: 11"
    Device "a device segment: 11"
    Absent "a segment not in the list: 11"
    NoStream "an empty stream: 19"
    NoEnd "items and no end item: 19"
    Followed "bytes after the module"
    Long "a module of more than 3,000 bytes"
    ByteLast "a byte at 16,383"
    BytePast "a byte at 16,384: 20"
    WordLast "a word at 16,382"
    WordAcross "a word at 16,383: 20"
    WordPast "a word at 16,384: 20"
    MoveFirst "a move to 0"
    MoveLast "a move to 16,383"
    MovePast "a move to 16,384: 20"
    MoveBefore "a move to one before 0: 20"
    MoveBack "a move from 16,384 into the page"
    MoveBackCarry "a move from 16,384 of page 3 into the page"
    MoveNowhere "a move by 0"
    MoveNowherePast "a move by 0 from 16,384: 20"
    Carry "a word whose sum with the counter has a carry, in page 3"
    SetPage "a word after another page is set"
    RestorePage "a word after another page is set and restored"
    TwiceStored "a byte over another of the same module"
    BoundaryByte "a byte up to the user boundary"
    BoundaryBytePast "a byte at the user boundary: 13"
    BoundaryWord "a word up to the user boundary"
    BoundaryWordAcross "a word over the user boundary: 13"
    BoundaryWordPast "a word at the user boundary: 13"
    BoundaryZero "a store, the user boundary being 0: 13"
    BoundaryStart "a start at the user boundary, and no store"
    BoundaryMove "a move to the user boundary or past it, and no store there"
}
