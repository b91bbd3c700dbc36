//! Records of unknown kinds, and damaged ones.

use super::Steer;
use crate::protocol::Request;
use exoslog::FORMS;

impl Steer<'_> {
    pub(super) fn unknown(&mut self) -> Request {
        let kind = match self.random.below(4) {
            0 => self.random.word(),
            1 => self
                .random
                .pick(&[2, 4, 5, 7, 9, 18, 26, 29, 31, 255, 259, 512, 65_535]),
            2 => self.random.pick(&FORMS.map(|form| form.kind)) ^ 256,
            _ => self.random.pick(&FORMS.map(|form| form.kind)) ^ 512,
        };
        let length = self.random.below(8);
        let body = self.random.bytes(length);
        Request::new(self.random.below(8), kind, &body)
    }

    /// The same request with its record damaged: cut, lengthened or garbled.
    pub fn damaged(&mut self, mut request: Request) -> Request {
        let record = &mut request.record;
        let body = record.len() - 2;
        match self.random.below(6) {
            0 => record.truncate(2 + self.random.below(body + 1)),
            1 => record.truncate(2 + self.random.below(body.min(5) + 1)),
            2 => {
                let more = self.random.pick(&[1, 1, 1, 1, 65_533]);
                record.extend(self.random.bytes(more));
            }
            3 => {
                let at = self.random.below(record.len());
                record[at] = self.random.byte();
            }
            4 => {
                let kind = self.random.pick(&FORMS.map(|form| form.kind));
                record[..2].copy_from_slice(&kind.to_le_bytes());
            }
            _ => {
                let length = self.random.below(9);
                record.truncate(2);
                record.extend(self.random.bytes(length));
            }
        }
        record.truncate(usize::from(u16::MAX));
        request
    }
}
