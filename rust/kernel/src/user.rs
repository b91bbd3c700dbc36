//! The user's own bytes: store and load.

use crate::answers::{Refusal, Reply};
use crate::segments;
use crate::tables::{class, Tables, SEGMENT};
use std::ops::Range;

/// "Page zero 30h to 5Bh, save 3Dh and 3Eh."
const GUARDED: [Range<usize>; 2] = [0x30..0x3D, 0x3F..0x5C];

/// The row of the page zero segment.
const PAGE_ZERO: usize = 0;

/// "Store and load reach the page zero segment and user segments up to 16,384,
/// a shared one up to the user boundary."
fn reach(tables: &Tables, row: usize) -> Option<usize> {
    match tables.classes[row] {
        _ if row == PAGE_ZERO => Some(SEGMENT),
        class::USER => Some(SEGMENT),
        class::SHARED => Some(usize::from(tables.user_boundary)),
        _ => None,
    }
}

/// The user's part of a segment.
pub(crate) struct UserPart {
    row: usize,
    end: usize,
}

impl UserPart {
    /// "OWNER: segment not the caller's to free, store or load."
    pub(crate) fn of(tables: &Tables, segment: u8) -> Result<UserPart, Refusal> {
        let row = segments::row_of(tables, segment).ok_or(Refusal::Owner)?;
        let end = reach(tables, row).ok_or(Refusal::Owner)?;
        Ok(UserPart { row, end })
    }

    /// "RANGE: offset + length past the end"; order 2: "Write, store and load
    /// keep RANGE."
    fn check_range(&self, offsets: &Range<usize>) -> Result<(), Refusal> {
        if offsets.end > self.end {
            return Err(Refusal::Range);
        }
        Ok(())
    }

    /// RANGE, and "GUARD: store touches page zero 30h to 5Bh, save 3Dh and
    /// 3Eh".
    pub(crate) fn check_store(&self, offsets: &Range<usize>) -> Result<(), Refusal> {
        self.check_range(offsets)?;
        if self.row == PAGE_ZERO && is_guarded(offsets) {
            return Err(Refusal::Guard);
        }
        Ok(())
    }

    /// Where in the RAM the offsets are.
    pub(crate) fn place(&self, offsets: Range<usize>) -> Range<usize> {
        let base = self.row * SEGMENT;
        base + offsets.start..base + offsets.end
    }
}

fn is_guarded(offsets: &Range<usize>) -> bool {
    !offsets.is_empty()
        && GUARDED
            .iter()
            .any(|guarded| offsets.start < guarded.end && guarded.start < offsets.end)
}

fn offsets(offset: u16, length: usize) -> Range<usize> {
    let start = usize::from(offset);
    start..start + length
}

pub(crate) fn store(
    tables: &Tables,
    ram: &mut [u8],
    segment: u8,
    offset: u16,
    data: &[u8],
) -> Result<Reply, Refusal> {
    let part = UserPart::of(tables, segment)?;
    let offsets = offsets(offset, data.len());
    part.check_store(&offsets)?;
    ram[part.place(offsets)].copy_from_slice(data);
    Ok(Reply::done(0, data.len() as u16))
}

pub(crate) fn load(
    tables: &Tables,
    ram: &[u8],
    segment: u8,
    offset: u16,
    length: u16,
    output: &mut [u8],
) -> Result<Reply, Refusal> {
    let part = UserPart::of(tables, segment)?;
    let offsets = offsets(offset, usize::from(length));
    part.check_range(&offsets)?;
    output
        .get_mut(..usize::from(length))
        .ok_or(Refusal::Range)?
        .copy_from_slice(&ram[part.place(offsets)]);
    Ok(Reply::done(0, length))
}
