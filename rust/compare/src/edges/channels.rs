//! The edges of open, close and write.

use super::{Edge, Meeting, LONGEST_CHAIN};
use crate::view::further;
use exos_kernel::{HEADING, ROWS_OF_CHANNELS, SEGMENT};

impl<Met: FnMut(Edge)> Meeting<'_, Met> {
    pub(super) fn open(&mut self, channel: u8, n: usize) {
        let view = self.view;
        let (r, limit, t) = (view.r(), view.limit(), view.t() + HEADING + n);
        let shared = view.is_shared();
        self.done(t == limit && !shared, Edge::OpenLimit);
        self.answered(9, t == limit + 1 && !shared, Edge::OpenOver);
        self.done(t == limit && shared, Edge::OpenSharedLimit);
        self.answered(9, t == limit + 1 && shared, Edge::OpenSharedOver);
        self.answered(9, shared && view.free() > 0, Edge::OpenSharedFree);
        self.done(t == r, Edge::OpenR);
        self.done(t == r + 1, Edge::OpenPastR);
        let whole = t > r && (t - r) % SEGMENT == 0;
        let past = t > r + SEGMENT && (t - r) % SEGMENT == 1;
        self.done(whole, Edge::OpenSegment);
        self.done(past, Edge::OpenPastSegment);
        self.done(n == 0, Edge::OpenEmpty);
        self.done(n == 65_535, Edge::OpenLongest);
        let open = view.channels().len();
        self.done(open + 1 == ROWS_OF_CHANNELS, Edge::Open32);
        self.answered(8, open == ROWS_OF_CHANNELS, Edge::Open33);
        self.done(channel == 254, Edge::OpenLast);
        self.answered(3, channel == 255, Edge::Open255);
    }

    pub(super) fn close(&mut self, channel: u8) {
        let view = self.view;
        let open = view.channels();
        let Some(row) = view.row_of(channel) else {
            return;
        };
        let later = open.len() - 1 - row;
        self.done(row == 0 && later > 1, Edge::CloseFirst);
        self.done(row > 0 && later > 0, Edge::CloseMiddle);
        self.done(later == 0, Edge::CloseLast);
        self.done(is_last(row), Edge::CloseRow32);
        let far = further(view.r(), view.t()) + 1 == LONGEST_CHAIN;
        self.done(later > 0 && far, Edge::CloseFar);
        let t = view.t();
        let left = t - HEADING - usize::from(open[row].n);
        self.done(later > 0 && t > view.r(), Edge::CloseAcross);
        let gives_up = further(view.r(), left) < further(view.r(), t);
        self.done(gives_up && !view.is_shared(), Edge::CloseFrees);
        self.done(gives_up && view.is_shared(), Edge::CloseToUser);
        self.done(!gives_up && view.is_shared(), Edge::CloseShared);
    }

    pub(super) fn write(&mut self, channel: u8, offset: usize, length: usize) {
        let view = self.view;
        let Some(row) = view.row_of(channel) else {
            return;
        };
        self.done(is_last(row), Edge::WriteRow32);
        let (n, end) = (usize::from(view.channels()[row].n), offset + length);
        self.done(end == n && length > 0, Edge::WriteEnd);
        self.answered(13, end == n + 1 && length > 0, Edge::WritePast);
        self.done(end == n && length == 0, Edge::WriteNothing);
        self.answered(13, end == n + 1 && length == 0, Edge::WriteNothingPast);
        if let Some((first, last)) = view.links(row, offset, length) {
            self.done(first < last, Edge::WriteAcross);
            self.done(last + 1 == LONGEST_CHAIN, Edge::WriteFar);
        }
    }
}

/// Whether a row of channels is the last.
pub(super) fn is_last(row: usize) -> bool {
    row + 1 == ROWS_OF_CHANNELS
}
