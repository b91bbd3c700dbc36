//! The numbers at which the edges stand, read off good tables.

use exos_kernel::{class, Channel, Device, Tables, HEADING, SEGMENT};
use std::ops::Range;

/// How many segments beyond 255 the chain has for an R and a T.
pub fn further(r: usize, t: usize) -> usize {
    t.saturating_sub(r).div_ceil(SEGMENT)
}

/// The sum of the lengths of some records.
fn lengths(channels: &[Channel]) -> usize {
    let lengths = channels.iter();
    lengths
        .map(|channel| HEADING + usize::from(channel.n))
        .sum()
}

/// A view of good tables.
#[derive(Clone, Copy)]
pub struct View<'a>(pub &'a Tables);

impl<'a> View<'a> {
    /// The RAM list.
    pub fn list(self) -> &'a [u8] {
        &self.0.list[..usize::from(self.0.segments)]
    }

    /// The class of each row of the list.
    pub fn classes(self) -> &'a [u8] {
        &self.0.classes[..usize::from(self.0.segments)]
    }

    /// The chain, as rows of the list.
    pub fn chain(self) -> &'a [u8] {
        &self.0.chain[..usize::from(self.0.chain_length)]
    }

    /// Whether the chain falls in segment number.
    pub fn chain_falls(self) -> bool {
        self.chain().windows(2).all(|pair| pair[0] > pair[1])
    }

    /// The open channels in line order.
    pub fn channels(self) -> &'a [Channel] {
        &self.0.channels[..usize::from(self.0.channel_count)]
    }

    /// The devices.
    pub fn devices(self) -> &'a [Device] {
        &self.0.devices[..usize::from(self.0.device_count)]
    }

    /// The row of the open channel of a number.
    pub fn row_of(self, number: u8) -> Option<usize> {
        self.channels()
            .iter()
            .position(|channel| channel.number == number)
    }

    /// The open channel of a number.
    pub fn channel(self, number: u8) -> Option<&'a Channel> {
        self.row_of(number).map(|row| &self.channels()[row])
    }

    /// The positions of a row's record.
    pub fn record(self, row: usize) -> Range<usize> {
        let channels = self.channels();
        lengths(&channels[..row])..lengths(&channels[..=row])
    }

    /// The lengths of the records after a row's.
    pub fn after(self, row: usize) -> usize {
        lengths(&self.channels()[row + 1..])
    }

    /// The position of the first byte of a row's buffer.
    fn first(self, row: usize) -> usize {
        self.record(row).start + HEADING
    }

    /// In which segment of the chain a position lies.
    pub fn link(self, position: usize) -> usize {
        (position + SEGMENT - self.r()) / SEGMENT
    }

    /// Which byte of the RAM a position is: "Position p < R is offset R-1-p of
    /// segment 255. Else with q = p-R it is offset 16,383 - (q mod 16,384) of chain
    /// segment 1 + q div 16,384."
    pub fn place(self, position: usize) -> usize {
        let offset = match position.checked_sub(self.r()) {
            None => self.r() - 1 - position,
            Some(q) => SEGMENT - 1 - q % SEGMENT,
        };
        SEGMENT * usize::from(self.0.chain[self.link(position)]) + offset
    }

    /// In which segments of the chain the first and the last of some bytes of a
    /// row's buffer lie; none where there are no bytes.
    pub fn links(self, row: usize, offset: usize, length: usize) -> Option<(usize, usize)> {
        let first = self.first(row) + offset;
        let last = first + length.checked_sub(1)?;
        Some((self.link(first), self.link(last)))
    }

    /// The offset at which the last segment of a row's buffer begins, if it lies
    /// in more than one.
    pub fn last_edge(self, row: usize) -> Option<usize> {
        let first = self.first(row);
        let end = first + usize::from(self.channels()[row].n);
        let beyond = end.checked_sub(self.r() + 1)?;
        let edge = self.r() + beyond / SEGMENT * SEGMENT;
        edge.checked_sub(first).filter(|&offset| offset > 0)
    }

    /// The segment numbers of a class.
    pub fn segments(self, class: u8) -> impl Iterator<Item = u8> + 'a {
        let rows = self.list().iter().zip(self.classes());
        rows.filter(move |row| *row.1 == class).map(|row| *row.0)
    }

    /// The class of a segment, [`class::NONE`] for the page zero segment.
    pub fn class(self, segment: u8) -> Option<u8> {
        let row = self.list().iter().position(|&other| other == segment)?;
        Some(self.classes()[row])
    }

    /// Whether a segment is shared.
    pub fn is_shared(self) -> bool {
        self.classes().contains(&class::SHARED)
    }

    /// How many segments are free.
    pub fn free(self) -> usize {
        self.segments(class::FREE).count()
    }

    /// R.
    pub fn r(self) -> usize {
        usize::from(self.0.r)
    }

    /// T, the sum of the records' lengths.
    pub fn t(self) -> usize {
        lengths(self.channels())
    }

    /// What T may reach by the room rule.
    pub fn limit(self) -> usize {
        let chain = self.r() + SEGMENT * (usize::from(self.0.chain_length) - 1);
        if self.is_shared() {
            chain - usize::from(self.0.user_boundary)
        } else {
            chain + SEGMENT * self.free()
        }
    }

    /// The EXOS boundary.
    pub fn boundary(self) -> usize {
        match self.t().checked_sub(self.r() + 1) {
            None => self.r() - self.t(),
            Some(beyond) => SEGMENT - 1 - beyond % SEGMENT,
        }
    }

    /// How far store and load reach into a segment, if it is the user's.
    pub fn reach(self, segment: u8) -> Option<usize> {
        match self.class(segment)? {
            class::NONE | class::USER => Some(SEGMENT),
            class::SHARED => Some(usize::from(self.0.user_boundary)),
            _ => None,
        }
    }
}

#[cfg(test)]
mod tests {
    use super::*;
    use exos_sentences::tables;

    /// The second buffer of [`tables`] has the positions 532 to 1,531, and R is
    /// 900.
    #[test]
    fn where_a_buffer_lies() {
        let tables = tables();
        let view = View(&tables);
        assert_eq!(view.links(0, 0, 500), Some((0, 0)));
        assert_eq!(view.links(1, 367, 1), Some((0, 0)));
        assert_eq!(view.links(1, 367, 2), Some((0, 1)));
        assert_eq!(view.links(1, 368, 632), Some((1, 1)));
        assert_eq!(view.links(1, 368, 0), None);
        assert_eq!(view.last_edge(0), None);
        assert_eq!(view.last_edge(1), Some(368));
    }

    /// 255 is the sixth segment of the list, and 254 the fifth.
    #[test]
    fn which_byte_a_position_is() {
        let tables = tables();
        let view = View(&tables);
        assert_eq!((view.record(0), view.record(1)), (0..516, 516..1_532));
        assert_eq!((view.after(0), view.after(1)), (1_016, 0));
        assert_eq!(view.place(0), 5 * 16_384 + 899);
        assert_eq!(view.place(899), 5 * 16_384);
        assert_eq!(view.place(900), 4 * 16_384 + 16_383);
        assert_eq!(view.place(900 + 16_383), 4 * 16_384);
    }

    #[test]
    fn a_buffer_that_ends_or_begins_at_an_edge_has_no_edge_within() {
        let mut tables = tables();
        tables.channels[1].n = 368;
        assert_eq!(View(&tables).last_edge(1), None);
        tables.channels[1].n = 369;
        assert_eq!(View(&tables).last_edge(1), Some(368));
        tables.channels[0].n = 868;
        assert_eq!(View(&tables).last_edge(1), None);
        tables.channels[0].n = 867;
        assert_eq!(View(&tables).last_edge(1), Some(1));
        tables.channels[1].n = 0;
        assert_eq!(View(&tables).last_edge(1), None);
    }
}
