//! Fewer and plainer items of a module.

use super::runs::leave_out;
use super::Shrinker;
use crate::protocol::Case;
use exos_modules::Module;

impl<Differs: FnMut(&Case) -> Option<usize>> Shrinker<Differs> {
    /// Leaves out what follows the items, then runs of items, then what they
    /// say.
    pub(super) fn simplify_stream(&mut self, row: usize) {
        self.try_module(row, |module| module.rest.clear());
        let items = |shrinker: &Self| shrinker.module(row).items.len();
        leave_out(items(self), self, items, |shrinker, run| {
            shrinker.try_module(row, |module| drop(module.items.drain(run)));
        });
        for at in 0..items(self) {
            self.try_module(row, |module| {
                if let Some(item) = module.items.get_mut(at) {
                    item.value = 0;
                }
            });
        }
    }

    /// The module that is the last field of a request.
    fn module(&self, row: usize) -> Module {
        Module::of(&self.rest(row))
    }

    fn try_module(&mut self, row: usize, how: impl FnOnce(&mut Module)) {
        let mut module = self.module(row);
        how(&mut module);
        let stream = module.stream();
        if stream != self.rest(row) {
            self.try_rest(row, stream);
        }
    }
}
