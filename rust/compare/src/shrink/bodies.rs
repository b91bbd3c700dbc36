//! Smaller numbers, plainer and shorter names, data and modules.

use super::parts::{change, parts, Part};
use super::runs::leave_out;
use super::Shrinker;
use crate::protocol::{Case, Request};
use exoslog::Field;

impl<Differs: FnMut(&Case) -> Option<usize>> Shrinker<Differs> {
    pub(super) fn simplify_request(&mut self, row: usize) {
        let output = |request: &mut Request, value: u16| request.output = value;
        self.lower(row, |request| Some(request.output), output);
        for at in 0..self.parts(row).map_or(0, |parts| parts.len()) {
            let value = |request: &Request| parts(request)?.get(at)?.number();
            let set = |request: &mut Request, value: u16| {
                change(request, |parts| parts.get_mut(at)?.set(value));
            };
            self.lower(row, value, set);
        }
        self.simplify_rest(row);
        self.simplify_writing(row);
    }

    /// Lowers a number of a request as far as halving finds.
    pub(super) fn lower(
        &mut self,
        row: usize,
        value: impl Fn(&Request) -> Option<u16>,
        set: impl Fn(&mut Request, u16),
    ) {
        let Some(mut high) = self.case.requests.get(row).and_then(value) else {
            return;
        };
        let mut low = 0;
        while low < high {
            let middle = if low == 0 { 0 } else { low + (high - low) / 2 };
            let mut case = self.case.clone();
            let Some(request) = case.requests.get_mut(row) else {
                return;
            };
            set(request, middle);
            if self.accepts(case) {
                high = middle;
            } else {
                low = middle + 1;
            }
        }
    }

    /// Lowers the R of the start that a case begins with and the last number
    /// of a request by the same amount.
    pub(super) fn lower_with_room(&mut self, row: usize) {
        let mut by = u16::MAX;
        while by > 0 {
            let mut case = self.case.clone();
            let lowered = row > 0
                && case.requests[0].kind() == Some(256)
                && lower_last(&mut case.requests[0], by)
                && case
                    .requests
                    .get_mut(row)
                    .is_some_and(|request| lower_last(request, by));
            if !(lowered && self.accepts(case)) {
                by /= 2;
            }
        }
    }

    /// Tries a plain name, zero data or a plain module, then a shorter one.
    fn simplify_rest(&mut self, row: usize) {
        let last = self.parts(row).and_then(|mut parts| parts.pop());
        match last.map(|last| last.field) {
            Some(Field::Name) => {
                for plain in [&b"A"[..], b"VIDEO:", b"NET:"] {
                    if self.rest(row) == plain || self.try_rest(row, plain.to_vec()) {
                        return;
                    }
                }
            }
            Some(Field::Data) => {
                let zero = vec![0; self.rest(row).len()];
                if self.rest(row) != zero {
                    self.try_rest(row, zero);
                }
            }
            Some(Field::Stream) => self.simplify_stream(row),
            _ => return,
        }
        self.shorten_rest(row);
    }

    /// Leaves out runs of a name's, data's or stream's bytes: all of them at
    /// first.
    fn shorten_rest(&mut self, row: usize) {
        let length = |shrinker: &Self| shrinker.rest(row).len();
        leave_out(length(self), self, length, |shrinker, run| {
            let mut rest = shrinker.rest(row);
            rest.drain(run);
            shrinker.try_rest(row, rest);
        });
    }

    fn parts(&self, row: usize) -> Option<Vec<Part>> {
        self.case.requests.get(row).and_then(parts)
    }

    /// The bytes of the last field of a request.
    pub(super) fn rest(&self, row: usize) -> Vec<u8> {
        let last = self.parts(row).and_then(|mut parts| parts.pop());
        last.map_or(Vec::new(), |last| last.bytes)
    }

    pub(super) fn try_rest(&mut self, row: usize, rest: Vec<u8>) -> bool {
        let mut case = self.case.clone();
        let request = case.requests.get_mut(row);
        let put = |parts: &mut [Part]| {
            parts.last_mut()?.bytes = rest;
            Some(())
        };
        request.is_some_and(|request| change(request, put)) && self.accepts(case)
    }
}

/// Lowers the last number of a body by so much; false where that cannot be.
fn lower_last(request: &mut Request, by: u16) -> bool {
    change(request, |parts| {
        let mut numbers = parts.iter_mut().rev();
        let last = numbers.find(|part| part.field.size().is_some())?;
        last.set(last.number()?.checked_sub(by)?)
    })
}
