//! The edges of store and load, and of the guarded bytes of page zero.

use super::{Edge, Meeting};
use exos_kernel::{class, SEGMENT};

impl<Met: FnMut(Edge)> Meeting<'_, Met> {
    pub(super) fn store(&mut self, segment: u8, offset: usize, length: usize) {
        let class = self.view.class(segment);
        let reach = self.view.reach(segment).unwrap_or(0);
        let (end, some, whole) = (offset + length, length > 0, reach == SEGMENT);
        let shared = class == Some(class::SHARED);
        self.done(some && whole && end == reach, Edge::StoreEnd);
        self.answered(13, some && whole && end == reach + 1, Edge::StorePast);
        self.done(some && shared && end == reach, Edge::StoreShared);
        self.answered(13, shared && end == reach + 1, Edge::StoreSharedPast);
        let page_zero = class == Some(class::NONE);
        if page_zero {
            self.guard(offset, end);
        }
        let guarded = page_zero && offset <= 0x5B && end > 0x5B;
        self.both(257, &[(13, end > SEGMENT), (14, guarded)]);
    }

    fn guard(&mut self, offset: usize, end: usize) {
        let some = offset < end;
        self.done(some && end == 0x30, Edge::GuardBefore);
        self.answered(14, offset <= 0x30 && end == 0x31, Edge::GuardFirst);
        self.answered(
            14,
            offset == 0x3C && end > 0x3C && end <= 0x3F,
            Edge::Guard3C,
        );
        self.done(offset == 0x3D && end == 0x3F, Edge::GuardGap);
        let last = (0x3D..=0x3F).contains(&offset) && end == 0x40;
        self.answered(14, last, Edge::Guard3F);
        self.answered(14, offset == 0x5B, Edge::GuardLast);
        self.done(some && offset == 0x5C, Edge::GuardAfter);
        let inside = (0x31..0x5B).contains(&offset);
        self.done(!some && inside, Edge::GuardNothing);
    }

    pub(super) fn load(&mut self, segment: u8, offset: usize, length: usize) {
        let shared = self.view.class(segment) == Some(class::SHARED);
        let reach = self.view.reach(segment).unwrap_or(0);
        let (end, whole) = (offset + length, reach == SEGMENT);
        let (some, lent) = (length > 0, self.output >= length);
        self.done(some && whole && end == reach, Edge::LoadEnd);
        self.answered(13, whole && lent && end == reach + 1, Edge::LoadPast);
        self.done(some && shared && end == reach, Edge::LoadShared);
        self.answered(13, shared && lent && end == reach + 1, Edge::LoadSharedPast);
        let short = end <= reach && self.output + 1 == length;
        self.answered(13, short, Edge::LoadShort);
        self.both(258, &[(13, end > SEGMENT || !lent)]);
    }
}
