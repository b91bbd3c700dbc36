//! The edges of writing modules in words.

use crate::edges::naming::name_edges;
use exos_modules::What;
use std::fmt::{self, Display, Formatter};

/// Pages that an item sets, and the answer.
pub(super) const PAGES: &[(u16, u16)] = &[
    (0, 0),
    (3, 0),
    (4, 20),
    (255, 20),
    (256, 20),
    (259, 20),
    (65_535, 20),
];

/// Every edge of writing modules.
pub fn all_writer_edges() -> impl Iterator<Item = WriterEdge> {
    let items = || What::ALL.into_iter().filter(|what| !what.is_last());
    let pages = PAGES.iter();
    NAMED
        .iter()
        .copied()
        .chain(items().map(WriterEdge::First))
        .chain(items().map(WriterEdge::Last))
        .chain((0..8).map(WriterEdge::Padding))
        .chain(pages.map(|&(page, answer)| WriterEdge::SetPage(page, answer)))
        .chain((1..3).map(WriterEdge::Cut))
}

name_edges! {
    /// An edge that a request to the writer can meet.
    WriterEdge {
        /// An item that comes first.
        First(what: What) format!("first {what}");
        /// An item that comes last.
        Last(what: What) format!("last {what}");
        /// Padding of so many bits.
        Padding(length: usize) format!("{length} bits of padding");
        /// A page that an item sets, and the answer.
        SetPage(page: u16, answer: u16) match answer {
            0 => format!("set page {page}"),
            _ => format!("set page {page}: {answer}"),
        };
        /// An item of which so many bytes are there.
        Cut(bytes: usize) format!("{bytes} of an item's three bytes: 2");
    }

    NoStart "no whole start: 2"
    Tag5 "an item of tag 5: 2"
    Tag255 "an item of tag 255: 2"
    ByteAbove "a byte of 256: 2"
    RestoreLow "a restore with a value of 1: 2"
    RestoreHigh "a restore with a value of 256: 2"
    NoListNorStart "no list of items, and a start outside its range: 2"
    LastPage "start page 3"
    PastPage "start page 4: 20"
    LastOffset "start offset 16,384"
    PastOffset "start offset 16,385: 20"
    LastStart "start page 3 and offset 16,384"
    NoItems "no items"
    ByteLast "a byte at 16,383"
    BytePast "a byte at 16,384: 20"
    WordLast "a word at 16,382"
    WordAcross "a word at 16,383: 20"
    WordPast "a word at 16,384: 20"
    MoveFirst "a move to 0"
    MoveLast "a move to 16,383"
    MovePast "a move to 16,384: 20"
    MoveBefore "a move to one before 0: 20"
    MoveBackByOne "a move by FFFFh"
    MoveBack "a move from 16,384 into the page"
    MoveNowhere "a move by 0"
    MoveNowherePast "a move by 0 from 16,384: 20"
    FaultBetween "an item at fault between others: 20"
    PageAndRange "20 and 13 at once: 20"
    BufferExact "the buffer just long enough"
    BufferLonger "the buffer one longer"
    BufferLongest "a buffer of 65,535 bytes"
    BufferShort "the buffer one short: 13"
    BufferNone "no buffer: 13"
    Long "a module of more than 3,000 bytes"
    MostItems "21,844 items"
    LentPart "a part of a channel's buffer lent, by the start's third byte"
}
