//! Stores and loads.

use super::Steer;
use crate::protocol::Request;
use exos_kernel::{class, SEGMENT};

impl Steer<'_> {
    fn user_part(&mut self) -> (usize, usize, usize) {
        let segment = self.segment(&[class::NONE, class::USER, class::SHARED]);
        let reach = self.view().reach(segment as u8);
        let (offset, length) = self.part(reach.unwrap_or(SEGMENT));
        (segment, offset, length)
    }

    pub(super) fn store(&mut self) -> Request {
        let (segment, mut offset, mut length) = self.user_part();
        if self.view().class(segment as u8) == Some(class::NONE) && !self.random.one_in(3) {
            (offset, length) = self.guarded_part();
        }
        let data = self.random.bytes(length);
        self.made(257, &[segment, offset], &data)
    }

    /// Bytes of page zero around the guarded ones.
    fn guarded_part(&mut self) -> (usize, usize) {
        let edge = self.random.pick(&[0x30, 0x3D, 0x3F, 0x5C]);
        let offset = edge - 3 + self.random.below(5);
        let short = self.random.pick(&[2, 4, 4, 60]);
        (offset, self.random.below(short))
    }

    pub(super) fn load(&mut self) -> Request {
        let (segment, offset, length) = self.user_part();
        let output = self.output_for(length);
        self.lent(output, 258, &[segment, offset, length], &[])
    }
}
