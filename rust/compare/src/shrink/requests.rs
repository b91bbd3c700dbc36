//! Fewer requests, and channels of low numbers.

use super::runs::leave_out;
use super::Shrinker;
use crate::protocol::{Case, Request};
use exos_kernel::HEADING;
use std::ops::Range;

/// Where an open's record has its n.
const N: Range<usize> = 4..6;
/// A channel's record without its buffer.
const RECORD: u16 = HEADING as u16;

impl<Differs: FnMut(&Case) -> Option<usize>> Shrinker<Differs> {
    /// Leaves out runs of requests: half of them at first, one in the end.
    pub(super) fn drop_requests(&mut self) {
        let half = self.case.requests.len() / 2;
        let length = |shrinker: &Self| shrinker.case.requests.len();
        leave_out(half, self, length, |shrinker, run| {
            let mut case = shrinker.case.clone();
            case.requests.drain(run);
            shrinker.accepts(case);
        });
    }

    /// Leaves out an open and lengthens the buffer of the open next to it by
    /// its record.
    pub(super) fn join_opens(&mut self) {
        let mut row = 0;
        while row < self.case.requests.len() {
            let is_open = |other: &usize| buffer_of(&self.case, *other).is_some();
            let before = (0..row).rfind(is_open);
            let after = (row + 1..self.case.requests.len()).find(is_open);
            let mut next = before.into_iter().chain(after);
            row += usize::from(!next.any(|other| self.joins(row, other)));
        }
    }

    fn joins(&mut self, row: usize, other: usize) -> bool {
        let mut case = self.case.clone();
        let lengths = (buffer_of(&case, row), buffer_of(&case, other));
        let (Some(dropped), Some(n)) = lengths else {
            return false;
        };
        let Some(n) = n.checked_add(dropped).and_then(|n| n.checked_add(RECORD)) else {
            return false;
        };
        case.requests[other].record[N].copy_from_slice(&n.to_le_bytes());
        case.requests.remove(row);
        self.accepts(case)
    }

    /// Gives each channel the lowest number that is not taken, in all calls.
    pub(super) fn rename_channels(&mut self) {
        for row in 0..self.case.requests.len() {
            if let Some(old) = self.case.requests.get(row).and_then(channel_of) {
                let mut lower = 0..old;
                lower.find(|&new| self.renames(old, new));
            }
        }
    }

    /// Gives a channel another number, if that is not taken.
    fn renames(&mut self, old: u8, new: u8) -> bool {
        let mut case = self.case.clone();
        let requests = case.requests.iter();
        let is_taken = requests.map(channel_of).any(|number| number == Some(new));
        for request in &mut case.requests {
            if channel_of(request) == Some(old) {
                request.record[2] = new;
            }
        }
        !is_taken && self.accepts(case)
    }
}

/// The channel that a request names first in its body.
fn channel_of(request: &Request) -> Option<u8> {
    let (kind, body) = request.event()?;
    let names_channel = matches!(kind, 1 | 3 | 6 | 8);
    names_channel.then(|| body.first().copied())?
}

/// The n of an open.
fn buffer_of(case: &Case, row: usize) -> Option<u16> {
    let request = case.requests.get(row)?;
    let n = (request.kind() == Some(1)).then(|| request.record.get(N))??;
    Some(u16::from_le_bytes([n[0], n[1]]))
}
