//! What a log is mostly about: the weights of the kinds in it.

use exoslog::FORMS;

/// What a log is mostly about.
#[derive(Clone, Copy, Debug, PartialEq, Eq)]
pub enum Mood {
    /// Every call.
    Mixed,
    /// Many short channels.
    Channels,
    /// Long buffers at the room's limit.
    Room,
    /// Segments that come, go and are shared.
    Segments,
    /// Devices that come.
    Devices,
    /// Buffers as long as there is room for.
    Line,
    /// As many channels as there are rows.
    Rows,
}

/// Every mood.
pub const MOODS: [Mood; 7] = [
    Mood::Mixed,
    Mood::Channels,
    Mood::Room,
    Mood::Segments,
    Mood::Devices,
    Mood::Line,
    Mood::Rows,
];

/// An unknown kind, in the place of a known one.
pub(super) const UNKNOWN: u16 = 999;

impl Mood {
    /// The kinds with their weights.
    pub(super) fn weights(self) -> [(u16, usize); 17] {
        let weights = match self {
            Mood::Mixed => [2, 4, 40, 20, 18, 20, 8, 6, 10, 8, 14, 24, 20, 30, 24, 16, 2],
            Mood::Channels => [0, 1, 90, 16, 24, 24, 6, 3, 3, 4, 4, 8, 6, 10, 8, 6, 1],
            Mood::Room => [0, 3, 60, 36, 16, 20, 3, 3, 14, 8, 8, 14, 16, 10, 8, 6, 1],
            Mood::Segments => [1, 9, 34, 22, 8, 10, 3, 8, 8, 8, 34, 50, 24, 40, 30, 20, 1],
            Mood::Devices => [0, 3, 40, 14, 14, 14, 14, 3, 60, 6, 6, 10, 8, 8, 6, 6, 1],
            Mood::Line => [0, 1, 60, 16, 20, 30, 2, 2, 16, 4, 1, 0, 0, 2, 4, 4, 1],
            Mood::Rows => [0, 0, 120, 6, 30, 30, 4, 2, 6, 2, 2, 4, 4, 8, 6, 6, 1],
        };
        let mut kinds = [(UNKNOWN, 0); 17];
        for (row, weight) in weights.into_iter().enumerate() {
            kinds[row].0 = FORMS.get(row).map_or(UNKNOWN, |form| form.kind);
            kinds[row].1 = weight;
        }
        kinds
    }
}
