//! The edges of what calls move in words.

use crate::edges::naming::name_edges;
use exoslog::{form_of, FORMS};
use std::fmt::{self, Display, Formatter};

/// The flags of the resets that are told apart.
pub(super) const FLAGS: [u8; 4] = [0x00, 0x10, 0x20, 0x40];

/// Whether a kind is none of close, link and reset, which have edges of their own.
pub(super) fn is_other(kind: u16) -> bool {
    !matches!(kind, 0 | 3 | 21)
}

/// Every edge of what calls move.
pub fn all_moved_edges() -> impl Iterator<Item = MovedEdge> {
    let kinds = FORMS.iter().map(|form| form.kind);
    NAMED
        .iter()
        .copied()
        .chain(FLAGS.into_iter().map(MovedEdge::Reset))
        .chain(kinds.filter(|&kind| is_other(kind)).map(MovedEdge::Other))
}

name_edges! {
    /// An edge that a call can meet by what it moves.
    MovedEdge {
        /// A reset of these flags with channels open.
        Reset(flags: u8) format!("reset {flags:02X}h, channels open: nothing");
        /// Another kind, done with channels open.
        Other(kind: u16) {
            let words = form_of(kind).map_or("", |form| form.words);
            format!("{words}, done, channels open: nothing")
        };
    }

    CloseOnly "close, the only record: nothing"
    CloseLast "close, the last of several: nothing"
    CloseFirst32 "close, the first of 32"
    CloseMiddle32 "close, the 16th of 32"
    CloseLinked "close, R below the cold R"
    CloseShared255 "close, 255 is shared"
    CloseSharedOther "close, another segment than 255 is shared"
    CloseToUser "close, the shared segment becomes user"
    CloseWide "close, more than 65,535"
    CloseMost "close, 507,632: the most that 32 segments allow"
    CloseNotOpen "close, not open, others open: 3, nothing"
    Close255 "close, channel 255, others open: 3, nothing"
    CloseBadTables "close, tables not good: 1, nothing"
    CloseWrongRam "close, an open channel, RAM length wrong: 1, nothing"
    LinkNothing "link, m 0, channels open: nothing"
    LinkNoneOpen "link, m above 0, no channel open: nothing"
    LinkBelowR "link, T = R - 1"
    LinkAtR "link, T = R"
    LinkAboveR "link, T = R + 1"
    LinkBelowNewR "link, T one below the new R"
    LinkAtNewR "link, T = the new R"
    LinkAboveNewR "link, T one above the new R"
    LinkSeveral "link, T over several segments beyond 255"
    LinkGrows "link, the chain grows"
    LinkShared "link, a segment is shared"
    LinkWide "link, more than 65,535"
    LinkMost "link, 507,647: the most that 32 segments allow"
    LinkName "link, channels open, m above 0: 5, nothing"
    LinkFull "link, channels open, m above 0: 8, nothing"
    LinkRoom "link, channels open: 9, nothing"
    LinkBadTables "link, tables not good, m above 0: 1, nothing"
    LinkWrongRam "link, channels open, m above 0, RAM length wrong: 1, nothing"
}
