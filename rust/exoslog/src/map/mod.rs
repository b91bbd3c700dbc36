//! The RAM after a record as regions: what a picture shows, exact to the byte.

mod build;
mod moved;
mod record;

use exos_kernel::class;
use std::fmt;
use std::ops::Range;

pub use build::{map, At};

/// What a picture shows.
#[derive(Clone, Debug, PartialEq, Eq)]
pub struct Map {
    /// Which RAM it is: "RAM after record 4 of 8".
    pub title: String,
    /// The record in words, its answer and, in a maker's log, its reply; after the
    /// last record what the log's closes and links moved.
    pub lines: Vec<String>,
    /// The RAM, after an accepted start.
    pub ram: Option<Ram>,
}

/// The RAM that is lent, and the numbers of the tables about it.
#[derive(Clone, Debug, PartialEq, Eq)]
pub struct Ram {
    /// "R is the room in the system segment for channels."
    pub r: usize,
    /// "Start fixes the cold R."
    pub cold_r: usize,
    /// "T is the sum of their lengths."
    pub t: usize,
    /// The EXOS boundary, in the chain's last segment.
    pub exos: Boundary,
    /// The user boundary, where a segment is shared.
    pub user: Option<Boundary>,
    /// The chain as segment numbers.
    pub chain: Vec<u8>,
    /// The segments "in list order".
    pub segments: Vec<Segment>,
    /// The open channels' records "in opening order".
    pub line: Vec<LineRecord>,
}

/// An offset of a segment.
#[derive(Clone, Copy, Debug, PartialEq, Eq)]
pub struct Boundary {
    /// The segment's number.
    pub segment: u8,
    /// The offset.
    pub offset: usize,
}

/// A segment.
#[derive(Clone, Debug, PartialEq, Eq)]
pub struct Segment {
    /// Its number.
    pub number: u8,
    /// Its class.
    pub class: Class,
    /// Where it stands in the chain, from 0.
    pub link: Option<usize>,
    /// All its bytes, the highest offsets first, as the line runs.
    pub regions: Vec<Region>,
}

/// "Each other segment has one class: free, user, system, device, shared."
#[derive(Clone, Copy, Debug, PartialEq, Eq)]
pub enum Class {
    /// "The first in the list is the page zero segment, outside every
    /// allocation."
    PageZero,
    /// Held by nobody.
    Free,
    /// Held by the user.
    User,
    /// Held by the system.
    System,
    /// Held by a device.
    Device,
    /// Held by the system above and the user below.
    Shared,
}

impl Class {
    /// The class that a row of the tables says.
    pub fn of(held: u8) -> Option<Class> {
        match held {
            class::NONE => Some(Class::PageZero),
            class::FREE => Some(Class::Free),
            class::USER => Some(Class::User),
            class::SYSTEM => Some(Class::System),
            class::DEVICE => Some(Class::Device),
            class::SHARED => Some(Class::Shared),
            _ => None,
        }
    }
}

impl fmt::Display for Class {
    fn fmt(&self, f: &mut fmt::Formatter) -> fmt::Result {
        f.write_str(match self {
            Class::PageZero => "page zero",
            Class::Free => "free",
            Class::User => "user",
            Class::System => "system",
            Class::Device => "device",
            Class::Shared => "shared",
        })
    }
}

/// Some offsets of a segment and what they hold.
#[derive(Clone, Debug, PartialEq, Eq)]
pub struct Region {
    /// The offsets.
    pub offsets: Range<usize>,
    /// What they hold.
    pub what: What,
}

/// What a region holds.
#[derive(Clone, Debug, PartialEq, Eq)]
pub enum What {
    /// The page zero segment.
    PageZero,
    /// A free segment.
    Free,
    /// A user segment, or a shared one below the user boundary: "the user owns
    /// the offsets below it".
    User,
    /// A segment that a device was given.
    Device,
    /// Offsets of 255 from the cold R on.
    AboveColdR,
    /// Offsets of 255 from R to the cold R: RAM of linked devices.
    Linked,
    /// A part of a channel's record.
    Record {
        /// Its row in the line.
        row: usize,
        /// Its positions in the line.
        positions: Range<usize>,
    },
    /// Offsets of the chain's last segment below the EXOS boundary, down to the
    /// user boundary where it is shared.
    Room,
}

/// A channel's record: "a 16-byte heading and then its buffer of n bytes".
#[derive(Clone, Debug, PartialEq, Eq)]
pub struct LineRecord {
    /// The channel's number.
    pub channel: u8,
    /// The row of its device.
    pub device: u8,
    /// The device's name.
    pub device_name: String,
    /// The unit.
    pub unit: u8,
    /// The length of the buffer.
    pub n: u16,
    /// Its positions in the line, L = 16 + n of them.
    pub positions: Range<usize>,
}

impl Ram {
    /// The numbers of the tables, as two lines.
    pub fn numbers(&self) -> [String; 2] {
        let chain: Vec<String> = self.chain.iter().map(u8::to_string).collect();
        let user = match self.user {
            Some(Boundary { segment, offset }) => format!("{offset} of {segment}"),
            None => "0, nothing shared".to_string(),
        };
        [
            format!(
                "R {}, cold R {}, T {}, chain {}",
                self.r,
                self.cold_r,
                self.t,
                chain.join(" ")
            ),
            format!(
                "EXOS boundary {} of {}, user boundary {user}",
                self.exos.offset, self.exos.segment
            ),
        ]
    }

    /// The boundaries and R that lie in a segment, with their names.
    pub fn marks(&self, segment: u8) -> Vec<(usize, &'static str)> {
        let mut marks = Vec::new();
        if self.chain.first() == Some(&segment) {
            marks.push((self.r, "R"));
        }
        if self.exos.segment == segment {
            marks.push((self.exos.offset, "EXOS boundary"));
        }
        if let Some(user) = self.user.filter(|user| user.segment == segment) {
            marks.push((user.offset, "user boundary"));
        }
        marks
    }
}

impl Segment {
    /// Its class and place in the chain.
    pub fn role(&self) -> String {
        match self.link {
            Some(link) => format!("{}, chain segment {link}", self.class),
            None => self.class.to_string(),
        }
    }
}

impl What {
    /// All that a region may hold, but records.
    pub const KINDS: [What; 7] = [
        What::PageZero,
        What::Free,
        What::User,
        What::Device,
        What::Room,
        What::Linked,
        What::AboveColdR,
    ];

    /// What it is, in words; a record is known by its channel in the line.
    pub fn words(&self, line: &[LineRecord]) -> String {
        match self {
            What::PageZero => "page zero".to_string(),
            What::Free => "free".to_string(),
            What::User => "the user's".to_string(),
            What::Device => "a device's".to_string(),
            What::AboveColdR => "above the cold R".to_string(),
            What::Linked => "linked devices' RAM".to_string(),
            What::Record { row, .. } => format!("channel {}", line[*row].channel),
            What::Room => "room".to_string(),
        }
    }
}
