//! The edges of reads. Order 2: a read "gives the bytes that remain, up to the
//! length asked".

mod words;

use super::channels::is_last;
use super::{Edge, Meeting};
use exos_kernel::LISTED;
use words::{LENGTHS, OFFSETS};

pub use words::{all_read_edges, ReadEdge};

/// A read of an open channel: its row, the buffer's n, what is asked and what is
/// given.
struct Reading {
    row: usize,
    n: usize,
    offset: usize,
    asked: usize,
    given: usize,
}

impl Reading {
    /// Whether it has bytes to give, and not all that are asked.
    fn stops(&self) -> bool {
        self.given > 0 && self.given < self.asked
    }
}

impl<Met: FnMut(Edge)> Meeting<'_, Met> {
    fn reads(&mut self, number: u16, at: bool, edge: ReadEdge) {
        self.answered(number, at, Edge::Read(edge));
    }

    pub(super) fn read(&mut self, channel: u8, offset: usize, asked: usize) {
        let Some(row) = self.view.row_of(channel) else {
            self.reads(3, self.output < asked, ReadEdge::NotOpen);
            return;
        };
        let n = usize::from(self.view.channels()[row].n);
        let reading = Reading {
            row,
            n,
            offset,
            asked,
            given: asked.min(n.saturating_sub(offset)),
        };
        self.reads(0, is_last(row), ReadEdge::Row32);
        self.read_at(&reading);
        self.read_end(&reading);
        self.read_output(&reading);
    }

    fn read_at(&mut self, reading: &Reading) {
        let &Reading {
            n, offset, asked, ..
        } = reading;
        for (row, (_, offset_by)) in OFFSETS.iter().enumerate() {
            for (column, &(_, length)) in LENGTHS.iter().enumerate() {
                let is_at = offset_by(n) == Some(offset) && asked == length;
                self.reads(0, is_at && n > 0, ReadEdge::At(row, column));
                self.reads(0, is_at && n == 0, ReadEdge::OfNone(row, column));
            }
        }
    }

    fn read_end(&mut self, reading: &Reading) {
        let &Reading {
            row,
            n,
            offset,
            asked,
            given,
        } = reading;
        let (end, stops) = (offset + asked, reading.stops());
        self.reads(0, end == n && asked > 0, ReadEdge::ToEnd);
        self.reads(0, end == n + 1 && stops, ReadEdge::Stops);
        self.reads(0, n == 65_535 && stops, ReadEdge::StopsLongest);
        let links = self.view.links(row, offset, given);
        let across = links.is_some_and(|(first, last)| first < last);
        self.reads(0, across && given == asked, ReadEdge::Across);
        let second = links.is_some_and(|(first, last)| first + 1 == last);
        self.reads(0, second && stops, ReadEdge::StopsAcross);
    }

    fn read_output(&mut self, reading: &Reading) {
        let &Reading { asked, given, .. } = reading;
        let (output, stops) = (self.output, reading.stops());
        let (all, exact, short) = (asked == given, output == given, output + 1 == given);
        self.reads(0, all && exact && given > 0, ReadEdge::OutputExact);
        self.reads(13, all && short, ReadEdge::OutputShort);
        self.reads(0, stops && exact, ReadEdge::StopsExact);
        self.reads(13, stops && short, ReadEdge::StopsShort);
        let one_less = output + 1 == asked && output > given;
        self.reads(0, stops && one_less, ReadEdge::StopsOneLess);
        let nothing = asked > 0 && given == 0;
        self.reads(0, nothing && output == 0, ReadEdge::NoOutput);
        let listed = output == LISTED && asked > LISTED;
        self.reads(0, listed && given == LISTED, ReadEdge::Listed);
        self.reads(13, listed && given == LISTED + 1, ReadEdge::ListedOver);
    }
}
