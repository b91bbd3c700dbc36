//! The edges of status, allocate, free and set user boundary.

use super::{Edge, Meeting};
use exos_kernel::class;

impl<Met: FnMut(Edge)> Meeting<'_, Met> {
    pub(super) fn status(&mut self) {
        self.done(self.output == 5, Edge::StatusExact);
        self.answered(13, self.output == 4, Edge::StatusShort);
    }

    pub(super) fn set_user_boundary(&mut self, value: usize) {
        let (shared, boundary) = (self.view.is_shared(), self.view.boundary());
        self.done(value == boundary, Edge::SetBoundary);
        self.answered(12, shared && value == boundary + 1, Edge::SetBeyond);
        self.answered(12, !shared && value <= boundary, Edge::SetUnshared);
    }

    pub(super) fn allocate(&mut self, caller: u8) {
        let view = self.view;
        let alone = view.0.chain_length == 1;
        self.answered(17, alone, Edge::ShareSystem);
        self.answered(17, !alone, Edge::ShareOther);
        self.answered(10, caller == 0 && view.is_shared(), Edge::ShareTwice);
        let zero = view.boundary() == 0 && !view.is_shared();
        self.answered(10, caller == 0 && zero, Edge::ShareNothing);
        self.answered(10, caller == 1, Edge::DeviceNone);
        let none = view.free() == 0 && (view.is_shared() || view.boundary() == 0);
        self.both(24, &[(10, none)]);
    }

    pub(super) fn free(&mut self, segment: u8) {
        let class = self.view.class(segment);
        self.done(class == Some(class::SHARED), Edge::FreeShared);
        self.answered(11, class == Some(class::NONE), Edge::FreePageZero);
        self.answered(11, class.is_none(), Edge::FreeAbsent);
        self.both(25, &[(11, matches!(class, None | Some(class::NONE)))]);
    }
}
