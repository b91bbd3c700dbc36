//! "Several at once: the lowest number wins": a refusal that was given, and
//! another that held too.

use super::{Edge, Meeting};
use crate::view::View;
use exos_kernel::{HEADING, LEAST_R, NAME, ROWS_OF_CHANNELS, ROWS_OF_DEVICES};

/// The pairs that can be had, but for those with TABLES: a kind, the refusal
/// that wins and the other. A channel that is open is not 255, one that is not
/// open gives nothing, so that no output is too short, a string against the rules
/// names no device, and only the page zero segment, which is the user's, has a
/// guard. At an item of a module MODULE wins over PAGE, and these over RANGE and
/// GUARD.
pub(super) const BOTH: &[(u16, u16, u16)] = &[
    (1, 3, 5),
    (1, 3, 6),
    (1, 3, 7),
    (1, 3, 8),
    (1, 3, 9),
    (1, 4, 5),
    (1, 4, 6),
    (1, 4, 7),
    (1, 4, 8),
    (1, 4, 9),
    (1, 5, 7),
    (1, 5, 8),
    (1, 5, 9),
    (1, 6, 7),
    (1, 6, 8),
    (1, 6, 9),
    (1, 7, 8),
    (1, 7, 9),
    (1, 8, 9),
    (21, 5, 8),
    (21, 5, 9),
    (21, 8, 9),
    (24, 2, 10),
    (25, 2, 11),
    (30, 2, 11),
    (30, 2, 13),
    (30, 2, 14),
    (30, 2, 19),
    (30, 2, 20),
    (30, 11, 19),
    (30, 11, 20),
    (30, 19, 13),
    (30, 19, 14),
    (30, 19, 20),
    (30, 20, 13),
    (257, 11, 13),
    (257, 13, 14),
    (258, 11, 13),
];

impl<Met: FnMut(Edge)> Meeting<'_, Met> {
    /// Tells the pairs of the refusal that was given with each of these that
    /// is higher and holds.
    pub(super) fn both(&mut self, kind: u16, held: &[(u16, bool)]) {
        let given = self.number;
        for &(other, holds) in held {
            let two = holds && given > 0 && given < other;
            self.at(two, Edge::Both(kind, given, other));
        }
    }

    pub(super) fn both_of_open(&mut self, channel: u8, driver_status: u8, n: usize, name: &[u8]) {
        let view = self.view;
        let held = [
            (4, view.row_of(channel).is_some()),
            (5, is_no_name(name)),
            (6, is_no_device(view, name)),
            (7, driver_status != 0),
            (8, view.channels().len() == ROWS_OF_CHANNELS),
            (9, view.t() + HEADING + n > view.limit()),
        ];
        self.both(1, &held);
    }

    pub(super) fn both_of_link(&mut self, m: usize, name: &[u8]) {
        let view = self.view;
        let is_low = view.r() < m + usize::from(LEAST_R);
        let held = [
            (5, name.is_empty()),
            (8, view.devices().len() == ROWS_OF_DEVICES),
            (9, is_low || view.t() + m > view.limit()),
        ];
        self.both(21, &held);
    }
}

/// A byte that no string may have; there are other strings against the rules.
fn is_no_name(name: &[u8]) -> bool {
    name.iter().any(|byte| !matches!(byte, 0x21..=0x7E))
}

/// A device's name and a colon alone, and no device so named; there are other
/// strings that name none.
fn is_no_device(view: View, name: &[u8]) -> bool {
    let Some((b':', letters)) = name.split_last() else {
        return false;
    };
    let same = |name: &[u8; NAME], length: u8| {
        let name = &name[..usize::from(length)];
        name.eq_ignore_ascii_case(letters)
    };
    (1..=NAME).contains(&letters.len())
        && letters.iter().all(u8::is_ascii_alphabetic)
        && !view
            .devices()
            .iter()
            .any(|device| same(&device.name, device.length))
}
