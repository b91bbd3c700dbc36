//! The edges of what calls move. Order 8: "how many record bytes changed position or
//! place".

mod words;

use super::{Edge, Meeting};
use crate::view::further;
use exos_kernel::{class, Call, HEADING, MOST_R, ROWS_OF_CHANNELS, SEGMENT};
use words::{is_other, FLAGS};

pub use words::{all_moved_edges, MovedEdge};

/// The most that T can be: the most R, and thirty segments beyond 255.
const MOST_T: usize = MOST_R as usize + 30 * SEGMENT;
/// The most that fits 16 bits.
const NARROW: usize = u16::MAX as usize;

impl<Met: FnMut(Edge)> Meeting<'_, Met> {
    /// Tells an edge that the call is at if it was done and moved something.
    fn moves(&mut self, at: bool, edge: MovedEdge) {
        self.done(at && self.moved > 0, Edge::Moved(edge));
    }

    /// Tells an edge that the call is at if it got that answer and moved nothing.
    fn moves_none(&mut self, number: u16, at: bool, edge: MovedEdge) {
        self.answered(number, at && self.moved == 0, Edge::Moved(edge));
    }

    /// A call on tables that are good, or not, with RAM of their length, or not.
    pub(super) fn moved_edges(
        &mut self,
        kind: u16,
        call: Call,
        is_good: bool,
        is_length_right: bool,
    ) {
        if !is_good {
            self.on_bad_tables(call);
        } else if !is_length_right {
            self.in_wrong_ram(call);
        } else {
            self.moved_by(kind, call);
        }
    }

    fn on_bad_tables(&mut self, call: Call) {
        let is_close = matches!(call, Call::Close { .. });
        self.moves_none(1, is_close, MovedEdge::CloseBadTables);
        let is_link = matches!(call, Call::Link { m, .. } if m > 0);
        self.moves_none(1, is_link, MovedEdge::LinkBadTables);
    }

    fn in_wrong_ram(&mut self, call: Call) {
        let view = self.view;
        let is_close = matches!(call, Call::Close { channel } if view.row_of(channel).is_some());
        self.moves_none(1, is_close, MovedEdge::CloseWrongRam);
        let is_link = matches!(call, Call::Link { m, .. } if m > 0 && view.t() > 0);
        self.moves_none(1, is_link, MovedEdge::LinkWrongRam);
    }

    fn moved_by(&mut self, kind: u16, call: Call) {
        let is_open = !self.view.channels().is_empty();
        match call {
            Call::Close { channel } => self.moved_by_close(channel),
            Call::Link { m, .. } => self.moved_by_link(usize::from(m)),
            Call::Reset { flags } => {
                let is_edge = FLAGS.contains(&flags);
                self.moves_none(0, is_open && is_edge, MovedEdge::Reset(flags));
            }
            _ => {
                // 17 is a grant too
                let is_edge = is_open && is_other(kind);
                self.moves_none(0, is_edge, MovedEdge::Other(kind));
                self.moves_none(17, is_edge, MovedEdge::Other(kind));
            }
        }
    }

    fn moved_by_close(&mut self, channel: u8) {
        let view = self.view;
        let open = view.channels().len();
        let Some(row) = view.row_of(channel) else {
            self.moves_none(3, open > 0 && channel < 255, MovedEdge::CloseNotOpen);
            self.moves_none(3, open > 0 && channel == 255, MovedEdge::Close255);
            return;
        };
        self.moves_none(0, open == 1, MovedEdge::CloseOnly);
        self.moves_none(0, open > 1 && row + 1 == open, MovedEdge::CloseLast);
        let is_full = open == ROWS_OF_CHANNELS;
        self.moves(is_full && row == 0, MovedEdge::CloseFirst32);
        self.moves(is_full && row == 15, MovedEdge::CloseMiddle32);
        self.moves(view.0.r < view.0.cold_r, MovedEdge::CloseLinked);
        self.moves(self.moved > NARROW, MovedEdge::CloseWide);
        self.moves(self.moved == MOST_T - HEADING, MovedEdge::CloseMost);
        self.moved_by_close_of_shared(row);
    }

    fn moved_by_close_of_shared(&mut self, row: usize) {
        let view = self.view;
        let shared = view.segments(class::SHARED).next();
        self.moves(shared == Some(255), MovedEdge::CloseShared255);
        let is_other = shared.is_some_and(|segment| segment != 255);
        self.moves(is_other, MovedEdge::CloseSharedOther);
        let left = view.t() - view.record(row).len();
        let gives_up = further(view.r(), left) < further(view.r(), view.t());
        self.moves(is_other && gives_up, MovedEdge::CloseToUser);
    }

    fn moved_by_link(&mut self, m: usize) {
        let view = self.view;
        let (r, t) = (view.r(), view.t());
        let is_open = t > 0;
        self.moves_none(0, is_open && m == 0, MovedEdge::LinkNothing);
        self.moves_none(0, !is_open && m > 0, MovedEdge::LinkNoneOpen);
        self.moves_none(5, is_open && m > 0, MovedEdge::LinkName);
        self.moves_none(8, is_open && m > 0, MovedEdge::LinkFull);
        self.moves_none(9, is_open, MovedEdge::LinkRoom);
        self.moves(t + 1 == r, MovedEdge::LinkBelowR);
        self.moves(t == r, MovedEdge::LinkAtR);
        self.moves(t == r + 1, MovedEdge::LinkAboveR);
        self.moves(t + m + 1 == r, MovedEdge::LinkBelowNewR);
        self.moves(t + m == r, MovedEdge::LinkAtNewR);
        self.moves(t + m == r + 1, MovedEdge::LinkAboveNewR);
        self.moves(further(r, t) > 1, MovedEdge::LinkSeveral);
        let grows = r >= m && further(r - m, t) > further(r, t);
        self.moves(grows, MovedEdge::LinkGrows);
        self.moves(view.is_shared(), MovedEdge::LinkShared);
        self.moves(self.moved > NARROW, MovedEdge::LinkWide);
        self.moves(self.moved == MOST_T - 1, MovedEdge::LinkMost);
    }
}
