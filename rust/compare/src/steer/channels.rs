//! Opens, closes, reads and writes.

use super::{Mood, Steer};
use crate::protocol::Request;
use crate::view::further;
use exos_kernel::{HEADING, LISTED, SEGMENT};

/// The most that an offset, a length or an n can be.
const MOST: usize = u16::MAX as usize;
/// "Log readers ask for 256 bytes at a time."
const AT_A_TIME: usize = 256;

impl Steer<'_> {
    pub(super) fn open(&mut self) -> Request {
        if self.random.one_in(16) {
            return self.refused_open();
        }
        let channel = self.channel_to_open();
        let status = if self.random.one_in(25) {
            usize::from(self.random.byte())
        } else {
            0
        };
        let n = self.buffer_length();
        let name = self.name();
        self.made(1, &[channel, status, n], &name)
    }

    /// An open that may be refused for several reasons at once.
    fn refused_open(&mut self) -> Request {
        let channels = [255, self.open_channel(), self.channel_to_open()];
        let channel = self.random.pick(&channels);
        let status = self.random.pick(&[0, 9]);
        let n = self.random.pick(&[0, 65_535]);
        let name = self.random.pick(&[&b"VIDEO:"[..], b"NONE:", b" :"]);
        self.made(1, &[channel, status, n], name)
    }

    fn channel_to_open(&mut self) -> usize {
        if self.random.one_in(25) {
            return self.open_channel();
        }
        let few = self.random.pick(&[4, 40, 255]);
        let first = self.random.below(few) as u8;
        let taken = |number: u8| self.view().channel(number).is_some();
        let free = (first..255).chain(0..first).find(|&number| !taken(number));
        usize::from(free.unwrap_or(first))
    }

    /// Mostly a channel that is open.
    fn open_channel(&mut self) -> usize {
        let open = self.view().channels();
        let last = if self.mood == Mood::Line { 12 } else { 6 };
        match (self.random.below(20), open) {
            (0, _) => 255,
            (1, _) => usize::from(self.random.byte()),
            (_, []) => self.random.below(255),
            (few, [.., channel]) if few < last => usize::from(channel.number),
            _ => usize::from(self.random.pick(open).number),
        }
    }

    fn buffer_length(&mut self) -> usize {
        let (short, edge) = match self.mood {
            Mood::Line if !self.random.one_in(4) => return self.longest(),
            Mood::Rows => (20, 20),
            Mood::Channels => (15, 17),
            Mood::Room => (3, 15),
            _ => (6, 12),
        };
        match self.random.below(20) {
            few if few < short => {
                let most = self.random.pick(&[1, 2, 17, 40]);
                self.random.below(most)
            }
            few if few < edge => self.edge_length(),
            19 if self.random.one_in(4) => usize::from(self.random.word()),
            18 => self.random.pick(&[65_535, 65_534, 16_384, 16_368]),
            _ => {
                let left = self.view().limit().saturating_sub(self.view().t());
                self.random.below(left / 4 + 1).min(20_000)
            }
        }
    }

    /// The longest n that there is room for.
    fn longest(&mut self) -> usize {
        let view = self.view();
        MOST.min(view.limit().saturating_sub(view.t() + HEADING))
    }

    /// An n with which T comes to the room's limit, to R or to a segment's end.
    fn edge_length(&mut self) -> usize {
        let view = self.view();
        let start = view.t() + HEADING;
        let next = view.r() + SEGMENT * further(view.r(), start);
        let limit = view.limit();
        let often = if self.mood == Mood::Room { limit } else { next };
        let targets = [limit, often, often, next, next, next + SEGMENT];
        let target = self.random.pick(&targets).min(limit);
        let n = self.near(target).saturating_sub(start);
        n.min(MOST)
    }

    pub(super) fn close(&mut self) -> Request {
        let channel = self.open_channel();
        self.made(3, &[channel], &[])
    }

    pub(super) fn read(&mut self) -> Request {
        let channel = self.open_channel();
        let view = self.view();
        let row = view.row_of(channel as u8);
        let n = row.map_or(9, |row| usize::from(view.channels()[row].n));
        let edge = row.and_then(|row| view.last_edge(row));
        let offset = self.offset_to_read(n, edge.unwrap_or(n));
        let left = n.saturating_sub(offset);
        let length = self.length_to_read(left);
        let output = self.output_to_read(length, length.min(left));
        self.lent(output, 6, &[channel, offset, length], &[])
    }

    /// An offset within a buffer, around its end, far past it, or just before a
    /// segment's edge.
    fn offset_to_read(&mut self, n: usize, edge: usize) -> usize {
        let offset = match self.random.below(10) {
            0 => 0,
            1 | 2 => self.near(n),
            3 => edge.saturating_sub(self.random.below(9)),
            4 => usize::from(self.random.word()),
            5 if self.random.one_in(2) => MOST,
            _ => self.random.below(n + 1),
        };
        offset.min(MOST)
    }

    /// A length: none or one, around what is left, any, the longest, what log
    /// readers ask for, or a short one.
    fn length_to_read(&mut self, left: usize) -> usize {
        let length = match self.random.below(12) {
            0 => self.random.below(2),
            1 | 2 if left < 2_000 || self.random.one_in(4) => self.near(left),
            3 if self.random.one_in(2) => usize::from(self.random.word()),
            3 => MOST,
            4..=6 => AT_A_TIME,
            _ => self.random.below(left.min(300) + 1),
        };
        length.min(MOST)
    }

    /// An output: mostly for what is given; or one short of what is asked, or the
    /// listing program's.
    fn output_to_read(&mut self, asked: usize, given: usize) -> usize {
        match self.random.below(12) {
            0 => asked.saturating_sub(1),
            1 => LISTED,
            _ => self.output_for(given),
        }
    }

    pub(super) fn write(&mut self) -> Request {
        let channel = self.open_channel();
        let found = self.view().channel(channel as u8);
        let (offset, length) = self.part(found.map_or(9, |found| usize::from(found.n)));
        let data = self.random.bytes(length);
        self.made(8, &[channel, offset], &data)
    }
}
