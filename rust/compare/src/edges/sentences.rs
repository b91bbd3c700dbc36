//! The sentences on good tables: each kept up to its edge, and each broken.

use super::{Edge, Meeting};
use crate::protocol::MOST_RAM;
use exos_kernel::{Tables, SEGMENT};
use exos_sentences::{changed, BROKEN, KEPT};
use std::sync::LazyLock;

static KEPT_TABLES: LazyLock<Vec<Tables>> = LazyLock::new(|| KEPT.iter().map(changed).collect());
static BROKEN_TABLES: LazyLock<Vec<Tables>> =
    LazyLock::new(|| BROKEN.iter().map(changed).collect());

/// The RAM's length for tables, as long as can be sent.
pub fn ram_length_for(tables: &Tables) -> usize {
    let right = SEGMENT * usize::from(tables.segments);
    right.min(MOST_RAM as usize)
}

impl<Met: FnMut(Edge)> Meeting<'_, Met> {
    pub(super) fn sentences(&mut self, ram_length: usize) {
        let tables = self.view.0;
        let row_in = |rows: &[Tables]| rows.iter().position(|row| row == tables);
        let edge = match self.number {
            0 => row_in(&KEPT_TABLES).map(Edge::Kept),
            1 if ram_length == ram_length_for(tables) => row_in(&BROKEN_TABLES).map(Edge::Broken),
            _ => None,
        };
        if let Some(edge) = edge {
            (self.met)(edge);
        }
    }
}
