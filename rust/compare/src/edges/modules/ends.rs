//! The edges of a module's end, and of items at fault.

use super::{Loading, ModuleEdge, Step};
use crate::edges::{Edge, Meeting};
use exos_kernel::SEGMENT;
use exos_modules::{Item, Module, What};

/// A module of more bytes is a long one.
const LONG: usize = 3_000;

impl Loading {
    /// Whether the end item is read: no item before it is at fault.
    fn is_ended(&self) -> bool {
        let last = self.steps.last().map(|step| step.item.what);
        last == Some(What::End) && self.sound().len() + 1 >= self.steps.len()
    }

    /// The refusals of the items after the first at fault, an illegal one
    /// being passed over.
    fn later_refusals(&self) -> Vec<u16> {
        let later = self.steps.iter().skip(self.sound().len() + 1);
        let mut refusals: Vec<u16> = later.filter_map(|step| step.refusal).collect();
        if self.runs_out() {
            refusals.push(19);
        } else if self.fault().map(|step| step.item.what) == Some(What::Illegal) {
            let rest = Module::of_bits(&self.module.rest);
            let passed = Loading::new(self.target, self.counter, rest);
            refusals.extend(passed.steps.iter().filter_map(|step| step.refusal));
        }
        refusals
    }
}

impl<Met: FnMut(Edge)> Meeting<'_, Met> {
    pub(super) fn module_end(&mut self, loading: &Loading) {
        if loading.is_ended() {
            self.module_padding(loading);
        }
        if loading.runs_out() && loading.fault().is_none() {
            self.module_cut(loading);
        }
    }

    fn module_padding(&mut self, loading: &Loading) {
        let rest = &loading.module.rest;
        let (padding, followed) = rest.split_at(rest.len() % 8);
        let wrong: Vec<usize> = (0..padding.len()).filter(|&bit| padding[bit]).collect();
        self.module(0, wrong.is_empty(), ModuleEdge::Padding(padding.len()));
        if let [bit] = wrong[..] {
            self.module(19, true, ModuleEdge::BadPadding(padding.len(), bit));
        }
        self.module(0, !followed.is_empty(), ModuleEdge::Followed);
        let is_long = loading.module.length() > 8 * LONG;
        self.module(0, is_long, ModuleEdge::Long);
    }

    fn module_cut(&mut self, loading: &Loading) {
        let (items, rest) = (&loading.module.items, &loading.module.rest);
        let nothing = rest.is_empty();
        self.module(19, nothing && items.is_empty(), ModuleEdge::NoStream);
        self.module(19, nothing && !items.is_empty(), ModuleEdge::NoEnd);
        for what in What::LEGAL {
            let is_cut = !nothing && what.may_begin(rest);
            self.module(19, is_cut, ModuleEdge::Cut(what, rest.len()));
            let is_known = is_cut && rest.len() >= what.prefix_length();
            let mut whole = loading.counter;
            let refusal = whole.take(Item { what, value: 0 }, loading.target);
            if let Some(other) = refusal.filter(|_| is_known) {
                self.answered(19, true, Edge::Both(30, 19, other));
            }
        }
    }

    pub(super) fn module_faults(&mut self, loading: &Loading) {
        let number = self.number;
        let at_fault = loading.fault().is_some() || loading.runs_out();
        let stored = loading.sound().iter().any(Step::is_store);
        self.at(
            at_fault && stored && number > 0,
            Edge::Module(ModuleEdge::AfterStore(number)),
        );
        let Some(fault) = loading.fault() else {
            return;
        };
        let across = fault.offsets() == (SEGMENT - 1..SEGMENT + 1);
        let both = across && loading.target.reach < SEGMENT;
        self.answered(20, both, Edge::Both(30, 20, 13));
        for later in loading.later_refusals() {
            let is_first = fault.refusal == Some(number) && later != number;
            self.at(is_first, Edge::Module(ModuleEdge::Then(number, later)));
        }
    }
}
