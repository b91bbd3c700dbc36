//! Defaults and links.

use super::Steer;
use crate::protocol::Request;
use exos_kernel::LEAST_R;

impl Steer<'_> {
    pub(super) fn default(&mut self) -> Request {
        let unit = usize::from(self.random.byte());
        let mut name = self.device_name();
        if self.random.one_in(2) {
            name.make_ascii_lowercase();
        }
        self.made(19, &[unit], &name)
    }

    pub(super) fn link(&mut self) -> Request {
        if self.random.one_in(16) {
            return self.refused_link();
        }
        let (view, least) = (self.view(), usize::from(LEAST_R));
        let left = view.r() - least;
        let m = match self.random.below(20) {
            0 => self.near(left),
            1..=3 => self.near(view.limit() - view.t()),
            4 => usize::from(self.random.word()),
            5..=6 => self.random.below(left + 2),
            7..=8 => 0,
            _ => self.random.below(left.min(60) + 1),
        };
        let name = self.device_name();
        self.made(21, &[m.min(usize::from(u16::MAX))], &name)
    }

    /// A link that may be refused for several reasons at once.
    fn refused_link(&mut self) -> Request {
        let m = self.random.pick(&[0, 65_535]);
        let name = self.random.pick(&[&b""[..], b"A"]);
        self.made(21, &[m], name)
    }
}
