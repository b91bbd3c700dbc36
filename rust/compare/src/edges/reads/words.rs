//! The edges of reads in words.

use crate::edges::naming::name_edges;
use std::fmt::{self, Display, Formatter};

/// An offset: in words, and by a buffer's length n.
type Offset = (&'static str, fn(usize) -> Option<usize>);

/// Offsets around a buffer's end, and the last of all.
pub(super) const OFFSETS: [Offset; 4] = [
    ("n - 1", |n| n.checked_sub(1)),
    ("n", Some),
    ("n + 1", |n| Some(n + 1)),
    ("65,535", |_| Some(65_535)),
];

/// The least and the longest lengths asked, in words and as numbers.
pub(super) const LENGTHS: [(&str, usize); 3] = [("0", 0), ("1", 1), ("65,535", 65_535)];

/// Every edge of reads.
pub fn all_read_edges() -> impl Iterator<Item = ReadEdge> {
    let rows = (0..OFFSETS.len()).flat_map(|offset| {
        let lengths = 0..LENGTHS.len();
        lengths.map(move |length| (offset, length))
    });
    // n - 1 is no offset where n is 0
    let of_none = rows.clone().filter(|row| OFFSETS[row.0].1(0).is_some());
    NAMED
        .iter()
        .copied()
        .chain(rows.map(|(offset, length)| ReadEdge::At(offset, length)))
        .chain(of_none.map(|(offset, length)| ReadEdge::OfNone(offset, length)))
}

/// A row of [`OFFSETS`] and one of [`LENGTHS`] in words.
fn at(offset: usize, length: usize) -> String {
    format!("offset {}, length {}", OFFSETS[offset].0, LENGTHS[length].0)
}

name_edges! {
    /// An edge that a read can meet.
    ReadEdge {
        /// A row of [`OFFSETS`] and one of [`LENGTHS`], with n above 0.
        At(offset: usize, length: usize) format!("n above 0, {}", at(offset, length));
        /// The same with n 0.
        OfNone(offset: usize, length: usize) format!("n 0, {}", at(offset, length));
    }

    NotOpen "a channel not open, the output shorter than what is asked: 3"
    Row32 "the channel of the 32nd row"
    ToEnd "to the buffer's end"
    Stops "one past it: stops there"
    Across "over a segment's edge"
    StopsAcross "over a segment's edge, stops in the second segment"
    StopsLongest "of a buffer of 65,535 bytes, stops at its end"
    OutputExact "the output just as long as what is given and asked"
    OutputShort "the output one short of what is given and asked: 13"
    StopsExact "stops, the output just as long as what is given"
    StopsShort "stops, the output one short of what is given: 13"
    StopsOneLess "stops, the output one short of what is asked"
    NoOutput "nothing to give, and no output"
    Listed "4,096 bytes given into 4,096, more asked"
    ListedOver "4,097 bytes to give into 4,096: 13"
}
