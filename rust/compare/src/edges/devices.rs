//! The edges of default and link.

use super::{Edge, Meeting};
use crate::view::further;
use exos_kernel::{NAME, ROWS_OF_DEVICES};

impl<Met: FnMut(Edge)> Meeting<'_, Met> {
    pub(super) fn default(&mut self, name: &[u8]) {
        self.done(name.len() == NAME, Edge::DefaultLongest);
        let letters = name.iter().all(u8::is_ascii_alphabetic);
        self.answered(5, name.len() == NAME + 1 && letters, Edge::DefaultLonger);
    }

    pub(super) fn link(&mut self, m: usize, name: &[u8]) {
        let view = self.view;
        let (r, t, limit) = (view.r(), view.t(), view.limit());
        self.done(r == m + 256, Edge::LinkLeastR);
        self.answered(9, r == m + 255, Edge::LinkBelowR);
        self.done(t + m == limit, Edge::LinkLimit);
        self.answered(9, t + m == limit + 1 && r >= m + 256, Edge::LinkOver);
        self.done(m == 0, Edge::LinkNothing);
        let grows = r >= m && further(r - m, t) > further(r, t);
        self.done(grows, Edge::LinkGrows);
        self.done(m > 0 && further(r, t) > 0, Edge::LinkMoves);
        let devices = view.devices();
        self.done(devices.len() + 1 == ROWS_OF_DEVICES, Edge::Link16);
        self.answered(8, devices.len() == ROWS_OF_DEVICES, Edge::Link17);
        let named = |length: u8| usize::from(length) == name.len();
        let older = devices
            .iter()
            .any(|older| older.enabled && named(older.length) && older.name.starts_with(name));
        self.done(older, Edge::LinkAgain);
        self.done(name.len() == NAME, Edge::LinkLongest);
        let capitals = name.iter().all(u8::is_ascii_uppercase);
        self.answered(5, name.len() == NAME + 1 && capitals, Edge::LinkLonger);
        self.done(view.is_shared() && m > 0 && t > 0, Edge::LinkShared);
    }
}
