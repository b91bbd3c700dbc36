//! Where in a log a fault can be put in.

use super::faults::{At, Fault};
use super::pairs::Pair;

/// Where a fault is put.
#[derive(Clone, Copy, Debug, PartialEq, Eq, PartialOrd, Ord)]
pub enum Place {
    /// Into the first record of a log.
    Start,
    /// Into the first of the pairs that can have it, but for that record.
    First,
    /// Into one in the middle.
    Middle,
    /// Into the last of them.
    Last,
}

/// Every place, from first to last.
pub const PLACES: [Place; 4] = [Place::Start, Place::First, Place::Middle, Place::Last];

impl Fault {
    /// The places where it is tried.
    pub fn places(&self) -> &'static [Place] {
        match self.at {
            At::Start => &PLACES[..1],
            At::Event => &PLACES,
            At::Reply => &PLACES[1..],
        }
    }

    /// The pairs behind the first record into which it can be put.
    pub fn spots(&self, pairs: &[Pair]) -> Vec<usize> {
        let rows = match self.at {
            At::Start => 0..0,
            At::Event => 1..pairs.len(),
            At::Reply => 0..pairs.len(),
        };
        let fits = |&row: &usize| self.put(&pairs[row]).is_some();
        rows.filter(fits).collect()
    }
}

impl Place {
    /// The pair at that place, by the spots of a fault.
    pub fn of(self, spots: &[usize]) -> Option<usize> {
        match self {
            Place::Start => Some(0),
            Place::First => spots.first().copied(),
            Place::Middle => spots.get(spots.len() / 2).copied(),
            Place::Last => spots.last().copied(),
        }
    }
}
