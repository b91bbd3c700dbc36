//! Requests steered by the present tables, so that most calls do something
//! and the others stop just beyond an edge.

mod channels;
mod devices;
mod ill_formed;
mod modules;
mod mood;
mod names;
mod reset;
mod segments;
mod user;
mod writer;

use crate::protocol::Request;
use crate::view::View;
use exos_kernel::{class, Tables, HEADING, ROWS_OF_CHANNELS};
use exos_random::Random;
use exoslog::{form_of, Field};
use mood::UNKNOWN;

pub use mood::{Mood, MOODS};
pub use reset::{some_list, some_r};

/// One open in how many is closed again at once, beside those of chance.
const AGAIN_ONE_IN: usize = 8;

/// What a request is chosen by.
pub struct Steer<'a> {
    /// The source of chance.
    pub random: &'a mut Random,
    /// Good tables to aim by, mostly the present ones.
    pub tables: &'a Tables,
    /// What the log is about.
    pub mood: Mood,
    /// The channel that the request before opened.
    pub opened: Option<u8>,
}

impl<'a> Steer<'a> {
    fn view(&self) -> View<'a> {
        View(self.tables)
    }

    /// The next request of the log: now and then "a done open followed at once by
    /// that channel's close".
    pub fn request(&mut self) -> Request {
        match self.opened {
            Some(channel) if self.random.one_in(AGAIN_ONE_IN) => {
                self.made(3, &[usize::from(channel)], &[])
            }
            _ => {
                let kind = self.kind();
                let kind = self.fitting(kind);
                self.request_of(kind)
            }
        }
    }

    fn kind(&mut self) -> u16 {
        let weights = self.mood.weights();
        let mut left = self.random.below(weights.iter().map(|row| row.1).sum());
        for (kind, weight) in weights {
            if left < weight {
                return kind;
            }
            left -= weight;
        }
        UNKNOWN
    }

    /// Where a kind could only be refused now, mostly another one.
    fn fitting(&mut self, kind: u16) -> u16 {
        let view = self.view();
        let none_open = view.channels().is_empty();
        let is_full = view.t() + HEADING > view.limit();
        let none_held = [class::USER, class::DEVICE, class::SHARED]
            .iter()
            .all(|&class| view.segments(class).next().is_none());
        let none_left = view.free() == 0 && (view.is_shared() || view.boundary() == 0);
        let fitting = match kind {
            3 | 6 | 8 if none_open => 1,
            3 if self.mood == Mood::Line && !is_full => 1,
            1 if is_full && view.is_shared() => self.random.pick(&[3, 23, 25]),
            1 if is_full => 3,
            1 if view.channels().len() == ROWS_OF_CHANNELS => self.random.pick(&[1, 3, 6, 8]),
            23 if !view.is_shared() => 24,
            25 if none_held => 24,
            24 if none_left => 25,
            _ => return kind,
        };
        if self.random.one_in(5) {
            kind
        } else {
            fitting
        }
    }

    /// A request of a kind.
    fn request_of(&mut self, kind: u16) -> Request {
        match kind {
            256 => self.start(),
            0 => self.reset(),
            1 => self.open(),
            3 => self.close(),
            6 => self.read(),
            8 => self.write(),
            19 => self.default(),
            20 => self.status(),
            21 => self.link(),
            22 => self.made(22, &[], &[]),
            23 => self.set_user_boundary(),
            24 => self.allocate(),
            25 => self.free(),
            30 => self.load_module(),
            257 => self.store(),
            258 => self.load(),
            _ => self.unknown(),
        }
    }

    fn made(&mut self, kind: u16, fields: &[usize], tail: &[u8]) -> Request {
        let output = if self.random.one_in(400) {
            usize::from(u16::MAX)
        } else {
            self.random.below(8)
        };
        self.lent(output, kind, fields, tail)
    }

    fn lent(&mut self, output: usize, kind: u16, fields: &[usize], tail: &[u8]) -> Request {
        let form = form_of(kind).expect("a known kind");
        let sizes = form.fields.iter().copied().filter_map(Field::size);
        let mut body = Vec::new();
        for (size, field) in sizes.zip(fields) {
            body.extend(&field.to_le_bytes()[..size]);
        }
        body.extend(tail);
        Request::new(output, kind, &body)
    }

    /// A value around an edge: mostly at it or one beyond.
    fn near(&mut self, edge: usize) -> usize {
        let around = self.random.pick(&[1, 1, 1, 2, 2, 0]);
        (edge + around).saturating_sub(1)
    }

    /// An offset and a length in a part of `end` bytes: within, up to its end
    /// or just past it.
    fn part(&mut self, end: usize) -> (usize, usize) {
        let offset = match self.random.below(8) {
            0 => 0,
            1 => self.near(end),
            2 => usize::from(self.random.word()),
            _ => self.random.below(end + 1),
        };
        let left = end.saturating_sub(offset);
        let length = match self.random.below(8) {
            0 => 0,
            1 => self.near(left),
            2 if self.random.one_in(4) => usize::from(self.random.word()),
            3 if left < 2_000 || self.random.one_in(4) => left,
            _ => self.random.below(left.min(300) + 1),
        };
        let most = usize::from(u16::MAX);
        (offset.min(most), length.min(most))
    }

    /// An output that mostly holds so many bytes.
    fn output_for(&mut self, length: usize) -> usize {
        match self.random.below(12) {
            0 => length.saturating_sub(1),
            1 => self.random.below(length + 1),
            2..=5 => length,
            _ => length + self.random.below(8),
        }
    }
}
