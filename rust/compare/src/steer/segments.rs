//! Who holds a segment: status, allocate, free and set user boundary.

use super::Steer;
use crate::protocol::Request;
use exos_kernel::class;

impl Steer<'_> {
    pub(super) fn status(&mut self) -> Request {
        let output = self.random.pick(&[0, 4, 5, 5, 5, 6, 9]);
        self.lent(output, 20, &[], &[])
    }

    pub(super) fn set_user_boundary(&mut self) -> Request {
        let boundary = self.view().boundary();
        let value = match self.random.below(6) {
            0..=2 => self.near(boundary),
            3 => usize::from(self.random.word()),
            _ => self.random.below(boundary + 1),
        };
        self.made(23, &[value], &[])
    }

    fn caller(&mut self) -> usize {
        match self.random.below(40) {
            0 => self.random.pick(&[2, 3, 128, 255]),
            few if few < 10 => 1,
            _ => 0,
        }
    }

    pub(super) fn allocate(&mut self) -> Request {
        let caller = self.caller();
        self.made(24, &[caller], &[])
    }

    /// A segment: mostly one of a class that is asked for and is there.
    pub(super) fn segment(&mut self, wanted: &[u8]) -> usize {
        let view = self.view();
        let of_class = |&class: &u8| view.segments(class).collect::<Vec<u8>>();
        let found: Vec<_> = wanted.iter().map(of_class).collect();
        let found: Vec<_> = found.iter().filter(|some| !some.is_empty()).collect();
        let segment = match self.random.below(16) {
            0 => self.random.byte(),
            1 => self.random.pick(view.list()),
            _ if found.is_empty() => self.random.pick(view.list()),
            _ => {
                let of_one_class = self.random.pick(&found);
                self.random.pick(of_one_class)
            }
        };
        usize::from(segment)
    }

    pub(super) fn free(&mut self) -> Request {
        let segment = self.segment(&[class::USER, class::DEVICE, class::SHARED, class::USER]);
        let caller = match self.view().class(segment as u8) {
            _ if self.random.one_in(8) => self.caller(),
            Some(class::DEVICE) => 1,
            _ => 0,
        };
        self.made(25, &[caller, segment], &[])
    }
}
