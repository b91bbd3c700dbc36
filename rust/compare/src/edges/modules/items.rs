//! The edges of a module's items: where they store and what moves the counter.

use super::words::GUARD;
use super::{Loading, ModuleEdge, Step};
use crate::edges::{Edge, Meeting};
use exos_kernel::SEGMENT;
use exos_modules::What;
use std::ops::Range;

impl Step {
    fn is(&self, what: What, offset: usize) -> bool {
        self.item.what == what && self.counter.offset == offset
    }

    /// The offsets that the item stores to.
    pub(super) fn offsets(&self) -> Range<usize> {
        let length = match self.item.what {
            What::Byte => 1,
            What::Word => 2,
            _ => 0,
        };
        self.counter.offset..self.counter.offset + length
    }

    pub(super) fn is_store(&self) -> bool {
        !self.offsets().is_empty()
    }
}

impl<Met: FnMut(Edge)> Meeting<'_, Met> {
    /// The edges of each item up to the first at fault.
    pub(super) fn module_items(&mut self, loading: &Loading) {
        for step in loading.sound().iter().chain(loading.fault()) {
            match step.item.what {
                What::Byte | What::Word => self.module_store(loading, step),
                What::Move => self.module_move(loading, step),
                _ => {}
            }
        }
        self.module_pages(loading);
        self.module_first_and_last(loading);
        self.module_stored_twice(loading);
    }

    fn module_store(&mut self, loading: &Loading, step: &Step) {
        let (target, offsets) = (loading.target, step.offsets());
        let is_shared = target.reach < SEGMENT;
        let is_user = !is_shared && !target.is_page_zero;
        self.module(0, target.is_page_zero, ModuleEdge::PageZero);
        self.module(0, is_user, ModuleEdge::User);
        self.module(0, is_shared, ModuleEdge::Shared);
        let ends = [
            (0, What::Byte, SEGMENT - 1, ModuleEdge::ByteLast),
            (20, What::Byte, SEGMENT, ModuleEdge::BytePast),
            (0, What::Word, SEGMENT - 2, ModuleEdge::WordLast),
            (20, What::Word, SEGMENT - 1, ModuleEdge::WordAcross),
            (20, What::Word, SEGMENT, ModuleEdge::WordPast),
        ];
        for (answer, what, at, edge) in ends {
            self.module(answer, step.is(what, at), edge);
        }
        for &(what, at, answer) in GUARD {
            let guard = target.is_page_zero && step.is(what, at);
            self.module(answer, guard, ModuleEdge::Guard(what, at, answer));
        }
        let up_to =
            |what: What, end: usize| is_shared && step.item.what == what && offsets.end == end;
        let (before, past) = (target.reach, target.reach + 1);
        self.module(0, up_to(What::Byte, before), ModuleEdge::BoundaryByte);
        self.module(13, up_to(What::Byte, past), ModuleEdge::BoundaryBytePast);
        self.module(0, up_to(What::Word, before), ModuleEdge::BoundaryWord);
        self.module(13, up_to(What::Word, past), ModuleEdge::BoundaryWordAcross);
        self.module(
            13,
            up_to(What::Word, past + 1),
            ModuleEdge::BoundaryWordPast,
        );
        self.module(13, target.reach == 0, ModuleEdge::BoundaryZero);
    }

    fn module_move(&mut self, loading: &Loading, step: &Step) {
        let (by, from) = (step.item.value, step.counter.offset);
        let to = step.counter.moved(by);
        self.module(0, to == 0, ModuleEdge::MoveFirst);
        self.module(0, to == SEGMENT - 1, ModuleEdge::MoveLast);
        self.module(20, to == SEGMENT && by > 0, ModuleEdge::MovePast);
        self.module(20, to == 65_535, ModuleEdge::MoveBefore);
        self.module(0, from == SEGMENT, ModuleEdge::MoveBack);
        // the value of the counter, 65,536, is 0 in 16 bits
        let is_at_carry = from == SEGMENT && step.counter.page == 3;
        self.module(0, is_at_carry, ModuleEdge::MoveBackCarry);
        self.module(0, by == 0, ModuleEdge::MoveNowhere);
        self.module(20, by == 0, ModuleEdge::MoveNowherePast);
        self.module(0, to >= loading.target.reach, ModuleEdge::BoundaryMove);
    }

    /// Words that the page of the counter counts for.
    fn module_pages(&mut self, loading: &Loading) {
        let mut was_set = false;
        for step in loading.sound() {
            let (item, counter) = (step.item, step.counter);
            let is_word = item.what == What::Word;
            let carries = counter.page == 3 && counter.sum(item.value) > 65_535;
            self.module(0, is_word && carries, ModuleEdge::Carry);
            self.module(0, is_word && counter.is_set(), ModuleEdge::SetPage);
            let is_restored = was_set && !counter.is_set();
            self.module(0, is_word && is_restored, ModuleEdge::RestorePage);
            was_set |= counter.is_set();
        }
    }

    fn module_first_and_last(&mut self, loading: &Loading) {
        if let Some(first) = loading.steps.first() {
            let what = first.item.what;
            let answer = if what == What::Illegal { 19 } else { 0 };
            self.module(answer, true, ModuleEdge::First(what));
        }
        if let [.., last, _end] = loading.sound() {
            self.module(0, true, ModuleEdge::Last(last.item.what));
        }
        let no_store = !loading.sound().iter().any(Step::is_store);
        let start = loading.steps.first().map(|step| step.counter.offset);
        let reach = loading.target.reach;
        let at_boundary = reach < SEGMENT && start == Some(reach);
        self.module(0, at_boundary && no_store, ModuleEdge::BoundaryStart);
    }

    fn module_stored_twice(&mut self, loading: &Loading) {
        let mut stored = vec![false; SEGMENT];
        for step in loading.sound() {
            let places = &mut stored[step.offsets()];
            let twice = places.contains(&true);
            places.fill(true);
            self.module(0, twice, ModuleEdge::TwiceStored);
        }
    }
}
