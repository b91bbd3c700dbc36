//! The way of the location counter through the items of a module.

use crate::view::View;
use exos_kernel::{class, SEGMENT};
use exos_modules::{Item, What};

/// What of a segment the user may store to.
#[derive(Clone, Copy)]
pub struct Target {
    /// Where the user's part ends.
    pub reach: usize,
    /// Whether it is the page zero segment, which has the guard.
    pub is_page_zero: bool,
}

impl Target {
    /// A segment that is the user's whole.
    pub const WHOLE: Target = Target {
        reach: SEGMENT,
        is_page_zero: false,
    };

    /// A segment, if it is the user's.
    pub fn of(view: View, segment: u8) -> Option<Target> {
        Some(Target {
            reach: view.reach(segment)?,
            is_page_zero: view.class(segment) == Some(class::NONE),
        })
    }

    /// The refusal of a store of so many bytes.
    fn refusal(self, offset: usize, length: usize) -> Option<u16> {
        let end = offset + length;
        let guarded = |at: usize| matches!(at, 0x30..=0x3C | 0x3F..=0x5B);
        match end {
            _ if end > SEGMENT => Some(20),
            _ if end > self.reach => Some(13),
            _ if self.is_page_zero && (offset..end).any(guarded) => Some(14),
            _ => None,
        }
    }
}

/// The location counter, and the page that it began with.
#[derive(Clone, Copy)]
pub struct Counter {
    start_page: usize,
    /// The page.
    pub page: usize,
    /// The offset.
    pub offset: usize,
}

impl Counter {
    /// The counter at the start of a module.
    pub fn start(page: usize, offset: usize) -> Counter {
        Counter {
            start_page: page,
            page,
            offset,
        }
    }

    /// Whether another page than the first is set.
    pub fn is_set(self) -> bool {
        self.page != self.start_page
    }

    /// The sum of a word and the counter, with its carry.
    pub fn sum(self, word: u16) -> usize {
        usize::from(word) + self.page * SEGMENT + self.offset
    }

    /// Where a move would lead, counted from the page's start.
    pub fn moved(self, by: u16) -> usize {
        (self.offset + usize::from(by)) % 65_536
    }

    /// The 16 bits of a move that would lead there.
    pub fn way_to(self, offset: usize) -> u16 {
        (offset as u16).wrapping_sub(self.offset as u16)
    }

    /// Takes an item; an item at fault leaves the counter and gives its
    /// refusal.
    pub fn take(&mut self, item: Item, target: Target) -> Option<u16> {
        match item.what {
            What::Byte => return self.pass(1, target),
            What::Word => return self.pass(2, target),
            What::SetPage => self.page = usize::from(item.value),
            What::Restore => self.page = self.start_page,
            What::Move if self.moved(item.value) >= SEGMENT => return Some(20),
            What::Move => self.offset = self.moved(item.value),
            What::Illegal => return Some(19),
            What::End => {}
        }
        None
    }

    fn pass(&mut self, length: usize, target: Target) -> Option<u16> {
        let refusal = target.refusal(self.offset, length);
        if refusal.is_none() {
            self.offset += length;
        }
        refusal
    }
}
