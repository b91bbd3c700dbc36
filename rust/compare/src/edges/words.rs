//! The edges of documents 01 and 02 in words.

use super::again::{all_again_edges, AgainEdge};
use super::both::BOTH;
use super::modules::{all_module_edges, ModuleEdge};
use super::moved::{all_moved_edges, MovedEdge};
use super::naming::name_edges;
use super::reads::{all_read_edges, ReadEdge};
use super::writer::{all_writer_edges, WriterEdge};
use exos_kernel::ROWS_OF_SEGMENTS;
use exos_sentences::{BROKEN, KEPT};
use exoslog::form_of;
use std::fmt::{self, Display, Formatter};

/// Every edge.
pub fn all_edges() -> impl Iterator<Item = Edge> {
    let segments = 2..=ROWS_OF_SEGMENTS as u8;
    let both = BOTH.iter();
    NAMED
        .iter()
        .copied()
        .chain(segments.clone().map(Edge::StartOf))
        .chain(segments.map(Edge::CallOn))
        .chain(both.map(|&(kind, given, other)| Edge::Both(kind, given, other)))
        .chain(all_again_edges().map(Edge::Again))
        .chain(all_moved_edges().map(Edge::Moved))
        .chain(all_read_edges().map(Edge::Read))
        .chain(all_module_edges().map(Edge::Module))
        .chain(all_writer_edges().map(Edge::Writer))
        .chain((0..KEPT.len()).map(Edge::Kept))
        .chain((0..BROKEN.len()).map(Edge::Broken))
}

name_edges! {
    /// An edge that a call can meet.
    Edge {
        /// A start of so many segments, done.
        StartOf(segments: u8) format!("start: {segments} segments");
        /// A call on tables of so many segments, done.
        CallOn(segments: u8) format!("a call on {segments} segments");
        /// A kind, a refusal that was given, and another that held too.
        Both(kind: u16, given: u16, other: u16) {
            let words = form_of(kind).map_or("", |form| form.words);
            format!("{words}: {given} and {other} at once: {given}")
        };
        /// An edge of open and close again.
        Again(edge: AgainEdge) format!("open and close again: {edge}");
        /// An edge of what calls move.
        Moved(edge: MovedEdge) format!("moved: {edge}");
        /// An edge of read.
        Read(edge: ReadEdge) format!("read: {edge}");
        /// An edge of load module.
        Module(edge: ModuleEdge) format!("load module: {edge}");
        /// An edge of writing modules.
        Writer(edge: WriterEdge) format!("write module: {edge}");
        /// A call on the tables of a row of [`KEPT`], done.
        Kept(row: usize) format!("good: {}", KEPT[row].0);
        /// A call on the tables of a row of [`BROKEN`], answered TABLES.
        Broken(row: usize) format!("not good: {}: 1", BROKEN[row].0);
    }

    LongestRecord "a record of 65,535 bytes"
    LongestOutput "an output of 65,535 bytes"
    BadTables "tables not good, RAM length right: 1"
    BadTablesAndCall "tables not good and kind unknown: 1"
    WrongRam "tables good, RAM length wrong: 1"
    StartOnBad "start over tables not good: done"
    StartLeastR "start: R 256"
    StartBelowR "start: R 255: 16"
    StartMostR "start: R 16,128"
    StartAboveR "start: R 16,129: 16"
    StartOne "start: 1 segment: 16"
    StartMore "start: 33 segments: 16"
    StartEight "start: first segment 8"
    StartSeven "start: first segment 7: 16"
    StartWrongRam "start: list and R right, RAM length wrong: 16"
    OpenLimit "open: T at the room's limit, nothing shared"
    OpenOver "open: T one beyond it: 9"
    OpenSharedLimit "open: EXOS boundary at the user boundary"
    OpenSharedOver "open: EXOS boundary one below it: 9"
    OpenSharedFree "open: no room in a shared chain though a segment is free: 9"
    OpenR "open: T = R, boundary 0 in 255"
    OpenPastR "open: T = R + 1"
    OpenSegment "open: T = R + 16,384 k"
    OpenPastSegment "open: T = R + 16,384 k + 1"
    OpenEmpty "open: n 0"
    OpenLongest "open: n 65,535"
    Open32 "open: the 32nd channel"
    Open33 "open: one more: 8"
    OpenLast "open: channel 254"
    Open255 "open: channel 255: 3"
    NameString255 "open: a name of 255 bytes"
    NameString256 "open: a name of 256 bytes: 5"
    NameDevice28 "open: a device of 28 letters, not known: 6"
    NameDevice29 "open: a device of 29 letters: 5"
    NameFile28 "open: a file of 28 bytes"
    NameFile29 "open: a file of 29 bytes: 5"
    NameUnit255 "open: unit 255"
    NameUnit256 "open: unit 256: 5"
    NameEmpty "open: an empty name, the default set"
    NameNoDefault "open: an empty name, the default empty: 6"
    CloseFirst "close: the first of three or more"
    CloseMiddle "close: a middle one"
    CloseLast "close: the last"
    CloseAcross "close: later records move over a segment's edge"
    CloseFrees "close: a segment becomes free"
    CloseToUser "close: the shared segment becomes user"
    CloseShared "close: a segment stays shared"
    CloseFar "close: later records move, some out of the chain's 31st segment"
    CloseRow32 "close: the channel of the 32nd row"
    WriteEnd "write: to the buffer's end"
    WritePast "write: one past it: 13"
    WriteAcross "write: over a segment's edge"
    WriteFar "write: into the chain's 31st segment"
    WriteRow32 "write: the channel of the 32nd row"
    WriteNothing "write: no bytes at the buffer's end"
    WriteNothingPast "write: no bytes past it: 13"
    DefaultLongest "default: 28 letters"
    DefaultLonger "default: 29 letters: 5"
    StatusExact "status: 5 bytes of output"
    StatusShort "status: 4 bytes of output: 13"
    LinkLeastR "link: R - m = 256"
    LinkBelowR "link: R - m = 255: 9"
    LinkLimit "link: T at the room's limit"
    LinkOver "link: T one beyond it: 9"
    LinkNothing "link: m 0"
    LinkGrows "link: the chain grows"
    LinkMoves "link: a line over more than one segment moves"
    Link16 "link: the 16th device"
    Link17 "link: one more: 8"
    LinkAgain "link: an older device is disabled"
    LinkLongest "link: 28 capitals"
    LinkLonger "link: 29 capitals: 5"
    LinkShared "link: with a segment shared"
    SetBoundary "set user boundary: at the EXOS boundary"
    SetBeyond "set user boundary: one above it: 12"
    SetUnshared "set user boundary: nothing shared: 12"
    ShareSystem "allocate: 255 shared"
    ShareOther "allocate: another segment shared"
    ShareTwice "allocate: one is shared already: 10"
    ShareNothing "allocate: EXOS boundary 0: 10"
    DeviceNone "allocate: a device finds none: 10"
    FreeShared "free: the shared segment"
    FreePageZero "free: the page zero segment: 11"
    FreeAbsent "free: a segment not in the list: 11"
    LentPart "lent: a part of the RAM"
    LentLowest "lent: a part from offset 0 of its segment"
    LentSplit "lent: nothing, the buffer lies in two segments or more"
    LentEmpty "lent: nothing, n 0"
    LentNotOpen "lent: nothing, the channel is not open"
    LentRefused "lent: nothing, after a call refused for its tables or RAM: 1"
    ChainLongest "a chain of 31 segments"
    ChainNotFalling "a chain that does not fall in segment number"
    StoreEnd "store: up to 16,384"
    StorePast "store: up to 16,385: 13"
    StoreShared "store: up to the user boundary"
    StoreSharedPast "store: one past it: 13"
    LoadEnd "load: up to 16,384"
    LoadPast "load: up to 16,385: 13"
    LoadShared "load: up to the user boundary"
    LoadSharedPast "load: one past it: 13"
    LoadShort "load: the output one short: 13"
    GuardBefore "store: up to 2Fh"
    GuardFirst "store: up to 30h: 14"
    Guard3C "store: 3Ch: 14"
    GuardGap "store: 3Dh and 3Eh alone"
    Guard3F "store: 3Fh: 14"
    GuardLast "store: from 5Bh on: 14"
    GuardAfter "store: from 5Ch on"
    GuardNothing "store: no bytes between 30h and 5Bh"
    Reset00 "reset 00h"
    Reset10 "reset 10h, channels open"
    Reset20 "reset 20h, channels open, R below the cold R"
    Reset30 "reset 30h, channels open"
    Reset40 "reset 40h, a segment shared"
    Reset50 "reset 50h, another segment than 255 shared"
    Reset60 "reset 60h, a segment shared"
    Reset70 "reset 70h, a segment shared"
    ResetKeeps "reset 10h: 255 stays shared"
    ResetToUser "reset 10h: the shared segment becomes user"
    ResetBit0 "reset 01h: 15"
    ResetBit1 "reset 02h: 15"
    ResetBit2 "reset 04h: 15"
    ResetBit3 "reset 08h: 15"
    ResetBit7 "reset 80h: 15"
}
