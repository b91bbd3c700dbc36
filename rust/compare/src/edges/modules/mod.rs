//! The edges of load module.

mod ends;
mod items;
mod words;

use super::{Edge, Meeting};
use crate::counter::{Counter, Target};
use exos_kernel::{class, SEGMENT};
use exos_modules::{Item, Module, What};

pub use words::{all_module_edges, ModuleEdge};

/// An item, the counter that it meets, and its refusal.
struct Step {
    item: Item,
    counter: Counter,
    refusal: Option<u16>,
}

/// A module on its way into a segment.
struct Loading {
    target: Target,
    module: Module,
    /// Its items, also those after one at fault.
    steps: Vec<Step>,
    /// The counter after them.
    counter: Counter,
}

impl Loading {
    fn new(target: Target, mut counter: Counter, module: Module) -> Loading {
        let padding = &module.rest[..module.rest.len() % 8];
        let is_ill_padded = |item: &Item| item.what == What::End && padding.contains(&true);
        let step = |item: &Item| Step {
            item: *item,
            counter,
            refusal: is_ill_padded(item)
                .then_some(19)
                .or(counter.take(*item, target)),
        };
        let steps = module.items.iter().map(step).collect();
        Loading {
            target,
            module,
            steps,
            counter,
        }
    }

    /// The items before the first at fault.
    fn sound(&self) -> &[Step] {
        let is_fault = |step: &Step| step.refusal.is_some();
        let fault = self.steps.iter().position(is_fault);
        &self.steps[..fault.unwrap_or(self.steps.len())]
    }

    /// The first item at fault.
    fn fault(&self) -> Option<&Step> {
        self.steps.get(self.sound().len())
    }

    /// Whether the input runs out.
    fn runs_out(&self) -> bool {
        let last = self.module.items.last();
        !last.is_some_and(|item| item.what.is_last())
    }
}

impl<Met: FnMut(Edge)> Meeting<'_, Met> {
    fn module(&mut self, number: u16, at: bool, edge: ModuleEdge) {
        self.answered(number, at, Edge::Module(edge));
    }

    pub(super) fn short_module(&mut self, kind: u16, body: &[u8]) {
        let short = kind == 30 && body.len() == 3;
        self.module(2, short, ModuleEdge::ShortBody);
    }

    pub(super) fn load_module(&mut self, segment: u8, page: usize, offset: usize, stream: &[u8]) {
        self.module(0, page == 3, ModuleEdge::LastPage);
        self.module(2, page == 4 && offset <= SEGMENT, ModuleEdge::PastPage);
        self.module(0, offset == SEGMENT, ModuleEdge::LastOffset);
        let past = page <= 3 && offset == SEGMENT + 1;
        self.module(2, past, ModuleEdge::PastOffset);
        self.module_segment(segment);
        let target = Target::of(self.view, segment);
        let (counter, module) = (Counter::start(page, offset), Module::of(stream));
        self.both_of_module(target, counter, &module);
        if let (Some(target), 0..=3, 0..=SEGMENT) = (target, page, offset) {
            let loading = Loading::new(target, counter, module);
            self.module_items(&loading);
            self.module_end(&loading);
            self.module_faults(&loading);
        }
    }

    /// Refusals that come before all items, and the first item's.
    fn both_of_module(&mut self, target: Option<Target>, mut counter: Counter, module: &Module) {
        let first = match module.items.first() {
            Some(item) => counter.take(*item, target.unwrap_or(Target::WHOLE)),
            None => Some(19),
        };
        let held = [13, 14, 19, 20].map(|refusal| (refusal, first == Some(refusal)));
        self.both(30, &[(11, target.is_none())]);
        self.both(30, &held);
    }

    fn module_segment(&mut self, segment: u8) {
        let class = self.view.class(segment);
        let owners = [
            (class::FREE, ModuleEdge::Free),
            (class::SYSTEM, ModuleEdge::System),
            (class::DEVICE, ModuleEdge::Device),
        ];
        for (owner, edge) in owners {
            self.module(11, class == Some(owner), edge);
        }
        self.module(11, class.is_none(), ModuleEdge::Absent);
    }
}
