//! The edges of open and close again in words.

use crate::edges::naming::name_edges;
use std::fmt::{self, Display, Formatter};

/// Every edge of open and close again.
pub fn all_again_edges() -> impl Iterator<Item = AgainEdge> {
    NAMED.iter().copied()
}

name_edges! {
    /// An edge that an open that is closed again can meet.
    AgainEdge {}

    NoneOpen "no channel open before"
    Open31 "31 channels open before"
    Empty "n 0"
    Longest "n 65,535"
    Grows "the chain grew by one segment"
    GrowsMore "the chain grew by several segments"
    Far "the chain grew to 31 segments"
    NotFalling "the chain grew and does not fall in segment number"
    AtR "T = R, boundary 0 in 255"
    AtSegment "T = R + 16,384 k"
    Limit "T at the room's limit, nothing shared"
    SharedLimit "EXOS boundary at the user boundary"
    Shared255 "255 is shared"
    SharedOther "another segment than 255 is shared"
    SharedFree "a segment is shared and another is free"
    NotZero "places that were not zero before"
    Across "the record lies over a segment's edge"
    AcrossHeading "its heading lies over a segment's edge"
    Linked "R below the cold R"
    Default "the default name and unit"
    DefaultName "the default name, another unit"
    NewDevice "a device after 2, a unit above 0"
}
