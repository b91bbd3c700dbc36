//! Starts and resets.

use super::Steer;
use crate::protocol::Request;
use exos_kernel::{LEAST_R, MOST_R};
use exos_random::Random;

impl Steer<'_> {
    /// A start, accepted or just not.
    pub fn start(&mut self) -> Request {
        let (r, list) = (self.room_to_start(), self.list_to_start());
        self.made(256, &[r], &list)
    }

    fn room_to_start(&mut self) -> usize {
        let edges = [LEAST_R - 1, LEAST_R, MOST_R, MOST_R + 1, 11_074];
        match self.random.below(4) {
            0 => usize::from(self.random.pick(&edges)),
            1 => usize::from(self.random.word()),
            _ => some_r(self.random),
        }
    }

    fn list_to_start(&mut self) -> Vec<u8> {
        let mut list = self.view().list().to_vec();
        let row = self.random.below(list.len());
        match self.random.below(16) {
            0 | 8 => list[0] = self.random.pick(&[7, 7, 8]),
            1 => list[row] = self.random.byte(),
            2 => list.swap(0, row),
            3 => list.truncate(row),
            4 | 9 => list = (222..=255).skip(self.random.below(4)).collect(),
            5 => list = vec![255],
            6 => list.insert(row, list[row]),
            7 => list = some_list(self.random, list.len()),
            _ => {}
        }
        list
    }

    pub(super) fn reset(&mut self) -> Request {
        let flags = match self.random.below(8) {
            0 => self.random.byte(),
            1 => 1 << self.random.below(8),
            _ => 16 * self.random.below(8) as u8,
        };
        self.made(0, &[usize::from(flags)], &[])
    }
}

/// An R for a start that is to be accepted.
pub fn some_r(random: &mut Random) -> usize {
    let (least, most) = (usize::from(LEAST_R), usize::from(MOST_R));
    match random.below(8) {
        0 => least,
        1 => most,
        2 => 11_074,
        3 => least + random.below(most - least + 1),
        _ => least + random.below(2_000),
    }
}

/// A RAM list of so many segments.
pub fn some_list(random: &mut Random, length: usize) -> Vec<u8> {
    let mut numbers: Vec<u8> = if random.one_in(2) {
        (8..255).collect()
    } else {
        ((255 - length as u8)..255).collect()
    };
    while numbers.len() >= length {
        numbers.remove(random.below(numbers.len()));
    }
    numbers.push(255);
    numbers
}
