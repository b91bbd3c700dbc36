//! A plainer start and a shorter, plainer list of what the writer is asked.

use super::runs::leave_out;
use super::Shrinker;
use crate::protocol::{Case, Request, Sort, Writing};
use exos_modules::{list, of_list, Item, What};
use std::ops::Range;

/// Where a record has its start page and its start offset.
const PAGE: Range<usize> = 0..1;
const OFFSET: Range<usize> = 1..3;
/// Where the list begins, and how many bytes an item of it has.
const LIST: usize = 3;
const ITEM: usize = 3;

impl<Differs: FnMut(&Case) -> Option<usize>> Shrinker<Differs> {
    /// Leaves out runs of items, then lowers what they say and the start.
    pub(super) fn simplify_writing(&mut self, row: usize) {
        let items = |shrinker: &Self| shrinker.list_length(row).div_ceil(ITEM);
        leave_out(items(self), self, items, |shrinker, run| {
            shrinker.try_without(row, run);
        });
        self.join_moves(row);
        let values = (0..items(self)).map(value_of);
        for number in [PAGE, OFFSET].into_iter().chain(values) {
            let value = |request: &Request| number_at(request, number.clone());
            let set = |request: &mut Request, value: u16| set_at(request, number.clone(), value);
            self.lower(row, value, set);
        }
        self.shift_start(row);
    }

    /// Makes one move of two that follow each other, and lets the start stand
    /// where the first item leads.
    fn join_moves(&mut self, row: usize) {
        while self.try_list(row, joined_moves) {}
        while self.try_list(row, start_behind_first) {}
    }

    /// Lowers the start offset, and lets the move that comes first lead where it
    /// did.
    fn shift_start(&mut self, row: usize) {
        let mut by = u16::MAX;
        while by > 0 {
            let shifted = self.try_list(row, |offset, items| {
                let first = items.first_mut()?;
                *offset = offset.checked_sub(by)?;
                first.value = first.value.wrapping_add(by);
                (first.what == What::Move).then_some(())
            });
            if !shifted {
                by /= 2;
            }
        }
    }

    /// Tries another start offset and other items, where there is a list.
    fn try_list(
        &mut self,
        row: usize,
        how: impl FnOnce(&mut u16, &mut Vec<Item>) -> Option<()>,
    ) -> bool {
        let mut case = self.case.clone();
        let changed = case.requests.get_mut(row).and_then(|request| {
            let writing = Writing::of(&request.record)?;
            let (mut offset, mut items) = (writing.offset, of_list(writing.list)?);
            (request.sort == Sort::Writer).then_some(())?;
            how(&mut offset, &mut items)?;
            let (page, list) = (writing.page, &list(&items));
            request.record = Writing { page, offset, list }.record();
            Some(())
        });
        changed.is_some() && self.accepts(case)
    }

    /// How many bytes the list of a request to the writer has.
    fn list_length(&self, row: usize) -> usize {
        let request = self.case.requests.get(row);
        let asked = request.filter(|request| request.sort == Sort::Writer);
        asked.map_or(0, |request| request.record.len().saturating_sub(LIST))
    }

    /// Tries a list without a run of items, of which the last may be cut.
    fn try_without(&mut self, row: usize, run: Range<usize>) {
        let mut case = self.case.clone();
        if let Some(request) = case.requests.get_mut(row) {
            let end = (LIST + ITEM * run.end).min(request.record.len());
            request.record.drain(LIST + ITEM * run.start..end);
            self.accepts(case);
        }
    }
}

/// One move in the place of the first two that follow each other.
fn joined_moves(_: &mut u16, items: &mut Vec<Item>) -> Option<()> {
    let are_moves = |pair: &[Item]| pair.iter().all(|item| item.what == What::Move);
    let at = items.windows(2).position(are_moves)?;
    let second = items.remove(at + 1);
    items[at].value = items[at].value.wrapping_add(second.value);
    Some(())
}

/// The start where the first item leads, which goes.
fn start_behind_first(offset: &mut u16, items: &mut Vec<Item>) -> Option<()> {
    let first = *items.first()?;
    let by = match first.what {
        What::Byte => 1,
        What::Word => 2,
        What::Move => first.value,
        _ => return None,
    };
    items.remove(0);
    *offset = offset.wrapping_add(by);
    Some(())
}

/// Where a record has the value of an item.
fn value_of(at: usize) -> Range<usize> {
    let item = LIST + ITEM * at;
    item + 1..item + ITEM
}

/// A number of a request to the writer, where it has it.
fn number_at(request: &Request, at: Range<usize>) -> Option<u16> {
    let bytes = request.record.get(at)?.iter().rev();
    let number = bytes.fold(0, |number, &byte| number << 8 | u16::from(byte));
    (request.sort == Sort::Writer).then_some(number)
}

fn set_at(request: &mut Request, at: Range<usize>, number: u16) {
    if let Some(bytes) = request.record.get_mut(at) {
        let length = bytes.len();
        bytes.copy_from_slice(&number.to_le_bytes()[..length]);
    }
}

#[cfg(test)]
mod tests {
    use super::*;
    use crate::cases::played;
    use crate::judge::Difference;
    use crate::machine;
    use crate::protocol::Reply;
    use crate::report::words;
    use crate::shrink::shrink;

    /// What is left of a case for a side that replies otherwise where a list of a
    /// start is wrong for it.
    fn left_of(number: u64, is_wrong: impl Fn(u16, &[Item], &Reply) -> bool) -> Case {
        let mut side = |case: &Case| {
            let mut replies = machine::replies(case);
            let requests = case.requests.iter().zip(&mut replies);
            for (request, reply) in requests.filter(|row| row.0.sort == Sort::Writer) {
                let writing = Writing::of(&request.record);
                let items = writing.clone().and_then(|writing| of_list(writing.list));
                let start = writing.map_or(0, |writing| writing.offset);
                if items.is_some_and(|items| is_wrong(start, &items, reply)) {
                    reply.output ^= 1;
                }
            }
            replies
        };
        let differs = |case: &Case| {
            let found = Difference::between(&mut side, case).unwrap();
            found.map(|found| found.request)
        };
        shrink(played(1, number).case, differs)
    }

    #[test]
    fn a_fault_is_shrunk_to_its_least_items() {
        for number in [85, 88] {
            let case = left_of(number, |_, items, reply| {
                let restores = items.iter().filter(|item| item.what == What::Restore);
                reply.number == 0 && restores.count() >= 2
            });
            let [first, writing] = &case.requests[..] else {
                panic!("{:?}", case.requests);
            };
            assert_eq!(first.sort, Sort::Event);
            assert_eq!(words(writing), "# write module 0 0 restore restore");
            assert_eq!(writing.output, 2);
        }
    }

    /// Whether a move leads somewhere, the carry being kept.
    fn has_move_to(start: u16, items: &[Item], is_there: impl Fn(usize) -> bool) -> bool {
        let mut at = usize::from(start);
        items.iter().any(|item| {
            let by = match item.what {
                What::Byte => 1,
                What::Word => 2,
                What::Move => usize::from(item.value),
                _ => 0,
            };
            let to = at + by;
            at = to % 65_536;
            item.what == What::Move && is_there(to)
        })
    }

    #[test]
    fn a_move_is_shrunk_with_what_leads_there() {
        let case = left_of(85, |start, items, _| {
            has_move_to(start, items, |to| to == 16_384)
        });
        assert_eq!(words(&case.requests[1]), "# write module 0 0 move 4000");
        let case = left_of(85, |start, items, _| {
            has_move_to(start, items, |to| to > 65_535)
        });
        assert_eq!(words(&case.requests[1]), "# write module 0 1 move ffff");
    }
}
