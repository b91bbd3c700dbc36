//! The edges of open and close again. Order 13: "Customers hear from us that this
//! leaves no mark."

mod words;

use super::channels::is_last;
use super::{Edge, Meeting, LONGEST_CHAIN};
use crate::no_mark::Opened;
use exos_kernel::{class, HEADING, SEGMENT};

pub use words::{all_again_edges, AgainEdge};

impl<Met: FnMut(Edge)> Meeting<'_, Met> {
    fn closes(&mut self, at: bool, edge: AgainEdge) {
        self.done(at, Edge::Again(edge));
    }

    /// A close of the channel that the request before opened: the tables that it
    /// meets are those after the open.
    pub(super) fn again(&mut self, opened: Option<&Opened>) {
        let Some(opened) = opened else {
            return;
        };
        let Some(row) = self.view.row_of(opened.channel()) else {
            return;
        };
        self.closes(row == 0, AgainEdge::NoneOpen);
        self.closes(is_last(row), AgainEdge::Open31);
        self.closes(opened.was_not_zero(), AgainEdge::NotZero);
        self.again_record(row);
        self.again_chain(opened);
        self.again_room();
        self.again_device(row, opened);
    }

    fn again_record(&mut self, row: usize) {
        let (view, record) = (self.view, self.view.record(row));
        let n = record.len() - HEADING;
        self.closes(n == 0, AgainEdge::Empty);
        self.closes(n == 65_535, AgainEdge::Longest);
        let first = view.link(record.start);
        let across = |last: usize| first < view.link(last);
        self.closes(across(record.end - 1), AgainEdge::Across);
        let heading = record.start + HEADING - 1;
        self.closes(across(heading), AgainEdge::AcrossHeading);
    }

    fn again_chain(&mut self, opened: &Opened) {
        let chain = self.view.chain();
        let grown = chain.len().saturating_sub(opened.before().chain().len());
        self.closes(grown == 1, AgainEdge::Grows);
        self.closes(grown > 1, AgainEdge::GrowsMore);
        self.closes(grown > 0 && chain.len() == LONGEST_CHAIN, AgainEdge::Far);
        self.closes(grown > 0 && !self.view.chain_falls(), AgainEdge::NotFalling);
    }

    fn again_room(&mut self) {
        let view = self.view;
        let (r, t, shared) = (view.r(), view.t(), view.segments(class::SHARED).next());
        self.closes(t == r, AgainEdge::AtR);
        let whole = t > r && (t - r) % SEGMENT == 0;
        self.closes(whole, AgainEdge::AtSegment);
        let limit = t == view.limit();
        self.closes(limit && shared.is_none(), AgainEdge::Limit);
        self.closes(limit && shared.is_some(), AgainEdge::SharedLimit);
        self.closes(shared == Some(255), AgainEdge::Shared255);
        let other = shared.is_some_and(|segment| segment != 255);
        self.closes(other, AgainEdge::SharedOther);
        let free = view.free() > 0;
        self.closes(shared.is_some() && free, AgainEdge::SharedFree);
    }

    fn again_device(&mut self, row: usize, opened: &Opened) {
        let (tables, channel) = (self.view.0, self.view.channels()[row]);
        self.closes(tables.r < tables.cold_r, AgainEdge::Linked);
        let mut parts = opened.name().rsplitn(2, |&byte| byte == b':').skip(1);
        let front = parts.next().unwrap_or(&[]);
        self.closes(front.is_empty(), AgainEdge::Default);
        let is_named = front.first().is_some_and(u8::is_ascii_alphabetic);
        let other = channel.unit != tables.default.unit;
        self.closes(
            !front.is_empty() && !is_named && other,
            AgainEdge::DefaultName,
        );
        let is_new = channel.device > 2 && channel.unit > 0;
        self.closes(is_new, AgainEdge::NewDevice);
    }
}
