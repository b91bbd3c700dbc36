//! The line of channel RAM: which position is which byte of the RAM.
//!
//! The line runs downward in each segment, so a run of positions within one
//! segment is a contiguous part of the RAM in falling order. All work is done
//! run by run.

use crate::tables::{Tables, SEGMENT};
use std::ops::Range;

/// The positions of the line over a chain of segments.
pub(crate) struct Line<'a> {
    chain: &'a [u8],
    r: usize,
}

impl<'a> Line<'a> {
    /// The line of good tables.
    pub(crate) fn of(tables: &'a Tables) -> Self {
        Line {
            chain: tables.used_chain(),
            r: usize::from(tables.r),
        }
    }

    /// "Position p < R is offset R-1-p of segment 255. Else with q = p-R it is
    /// offset 16,383 - (q mod 16,384) of chain segment 1 + q div 16,384."
    fn place(&self, position: usize) -> usize {
        let (link, offset) = match position.checked_sub(self.r) {
            None => (0, self.r - 1 - position),
            Some(q) => (1 + q / SEGMENT, SEGMENT - 1 - q % SEGMENT),
        };
        usize::from(self.chain[link]) * SEGMENT + offset
    }

    /// How many positions from this one on lie in its segment.
    fn ahead(&self, position: usize) -> usize {
        match position.checked_sub(self.r) {
            None => self.r - position,
            Some(q) => SEGMENT - q % SEGMENT,
        }
    }

    /// How many positions just before this one lie in one segment.
    fn behind(&self, position: usize) -> usize {
        match position.checked_sub(self.r + 1) {
            None => position,
            Some(q) => q % SEGMENT + 1,
        }
    }

    /// The part of the RAM for `length` positions that lie in one segment.
    fn run(&self, position: usize, length: usize) -> Range<usize> {
        let end = self.place(position) + 1;
        end - length..end
    }

    /// The part of the RAM for some positions, if they are in one segment.
    pub(crate) fn part(&self, positions: Range<usize>) -> Option<Range<usize>> {
        (positions.len() <= self.ahead(positions.start))
            .then(|| self.run(positions.start, positions.len()))
    }

    /// Makes the positions zero.
    pub(crate) fn clear(&self, ram: &mut [u8], positions: Range<usize>) {
        let mut at = positions.start;
        while at < positions.end {
            let length = self.ahead(at).min(positions.end - at);
            ram[self.run(at, length)].fill(0);
            at += length;
        }
    }

    /// Writes bytes at rising positions.
    pub(crate) fn put(&self, ram: &mut [u8], mut at: usize, mut bytes: &[u8]) {
        while !bytes.is_empty() {
            let (now, later) = bytes.split_at(self.ahead(at).min(bytes.len()));
            copy_reversed(now, &mut ram[self.run(at, now.len())]);
            at += now.len();
            bytes = later;
        }
    }

    /// Reads bytes from rising positions.
    pub(crate) fn take(&self, ram: &[u8], mut at: usize, mut bytes: &mut [u8]) {
        while !bytes.is_empty() {
            let length = self.ahead(at).min(bytes.len());
            let (now, later) = bytes.split_at_mut(length);
            copy_reversed(&ram[self.run(at, length)], now);
            at += length;
            bytes = later;
        }
    }

    /// Moves the bytes of some positions to lower positions, the lowest first,
    /// so that none is moved over one not yet moved; how many were moved.
    pub(crate) fn move_up(&self, ram: &mut [u8], positions: Range<usize>, to: usize) -> usize {
        let (mut from, mut to) = (positions.start, to);
        let mut moved = 0;
        while from < positions.end {
            let length = self
                .ahead(from)
                .min(self.ahead(to))
                .min(positions.end - from);
            moved += move_run(ram, self.run(from, length), self.run(to, length));
            from += length;
            to += length;
        }
        moved
    }

    /// Moves the bytes of the first `end` positions `by` positions further on,
    /// the highest first, so that none is moved over one not yet moved; how many
    /// were moved.
    pub(crate) fn move_down(&self, ram: &mut [u8], end: usize, by: usize) -> usize {
        let mut end = end;
        let mut moved = 0;
        while end > 0 {
            let length = self.behind(end).min(self.behind(end + by));
            end -= length;
            moved += move_run(ram, self.run(end, length), self.run(end + by, length));
        }
        moved
    }
}

/// Moves the bytes of a run, each of them to another place; how many those are.
fn move_run(ram: &mut [u8], from: Range<usize>, to: Range<usize>) -> usize {
    let moved = from.len();
    ram.copy_within(from, to.start);
    moved
}

/// The line rises where the RAM falls.
fn copy_reversed(from: &[u8], to: &mut [u8]) {
    for (to, from) in to.iter_mut().zip(from.iter().rev()) {
        *to = *from;
    }
}
