//! The edges of what is lent of a buffer after a call.

use super::{Edge, Meeting};
use crate::view::View;
use exos_kernel::{good, Tables, SEGMENT};

impl<Met: FnMut(Edge)> Meeting<'_, Met> {
    /// `part` is where the part that is lent starts, or 0.
    pub(super) fn lent(&mut self, after: &Tables, ram_length: usize, channel: u8, part: u64) {
        if !good(after) || ram_length != SEGMENT * usize::from(after.segments) {
            self.answered(1, part == 0, Edge::LentRefused);
            return;
        }
        let n = View(after).channel(channel).map(|open| open.n);
        let is_lowest = part > 0 && part % SEGMENT as u64 == 0;
        self.at(n.is_none() && part == 0, Edge::LentNotOpen);
        self.at(n == Some(0) && part == 0, Edge::LentEmpty);
        self.at(n > Some(0) && part == 0, Edge::LentSplit);
        self.at(n > Some(0) && part > 0, Edge::LentPart);
        self.at(n > Some(0) && is_lowest, Edge::LentLowest);
    }
}

#[cfg(test)]
mod tests {
    use crate::cases::played;
    use crate::counts::Counts;

    #[test]
    fn a_hundred_cases_meet_what_is_lent_and_what_is_not() {
        let mut counts = Counts::new();
        for number in 0..100 {
            counts.join(&played(1, number).counts);
        }
        let mut unmet = counts.unmet();
        unmet.retain(|edge| edge.starts_with("lent: "));
        assert_eq!(unmet, [""; 0]);
    }
}
