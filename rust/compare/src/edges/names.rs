//! The edges of the strings that open takes.

use super::{Edge, Meeting};
use exos_kernel::NAME;

impl<Met: FnMut(Edge)> Meeting<'_, Met> {
    pub(super) fn name(&mut self, name: &[u8]) {
        self.done(name.len() == 255, Edge::NameString255);
        self.answered(5, name.len() == 256, Edge::NameString256);
        self.done(name.is_empty(), Edge::NameEmpty);
        let default_empty = self.view.0.default.length == 0;
        self.answered(6, name.is_empty() && default_empty, Edge::NameNoDefault);
        let mut parts = name.splitn(2, |&byte| byte == b':');
        let (front, file) = (parts.next().unwrap_or(&[]), parts.next());
        let file = file.unwrap_or(front);
        self.done(file.len() == NAME, Edge::NameFile28);
        let plain = |byte: &u8| matches!(byte, 0x21..=0x7E) && *byte != b':';
        let long = file.len() == NAME + 1 && file.iter().all(plain);
        self.answered(5, long, Edge::NameFile29);
        let letters = front
            .iter()
            .take_while(|byte| byte.is_ascii_alphabetic())
            .count();
        self.answered(6, letters == NAME, Edge::NameDevice28);
        self.answered(5, letters == NAME + 1, Edge::NameDevice29);
        let unit = &front[letters..];
        self.done(unit.ends_with(b"255"), Edge::NameUnit255);
        self.answered(5, unit == b"256" || unit == b"-256", Edge::NameUnit256);
    }
}
