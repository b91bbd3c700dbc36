//! Plainer tables and fewer segments.

use super::Shrinker;
use crate::cases::start_of;
use crate::protocol::{tables_of, Case, IMAGE};
use exos_kernel::SEGMENT;

impl<Differs: FnMut(&Case) -> Option<usize>> Shrinker<Differs> {
    /// Tries no tables and a start, then each byte of the tables zero.
    pub(super) fn simplify_tables(&mut self) {
        if self.case.image == [0; IMAGE] {
            return;
        }
        let mut case = self.case.clone();
        case.image = [0; IMAGE];
        if self.accepts(case.clone()) {
            return;
        }
        let tables = tables_of(&self.case.image);
        if usize::from(tables.segments) <= tables.list.len() {
            case.requests.insert(0, start_of(&tables));
            if self.accepts(case) {
                return;
            }
        }
        for at in 0..IMAGE {
            if self.case.image[at] != 0 {
                let mut case = self.case.clone();
                case.image[at] = 0;
                self.accepts(case);
            }
        }
    }

    /// Tries a shorter list in the start that a case begins with.
    pub(super) fn drop_segments(&mut self) {
        let mut row = 0;
        loop {
            let mut case = self.case.clone();
            let start = &mut case.requests[0];
            if start.kind() != Some(256) || start.record.len() <= 4 + row {
                return;
            }
            start.record.remove(4 + row);
            case.ram_length = case.ram_length.saturating_sub(SEGMENT as u32);
            if !self.accepts(case) {
                row += 1;
            }
        }
    }
}
