//! The location counter of a module, and the page rule: what the loader refuses
//! with PAGE, and so what the writer does.

use crate::answers::Refusal;
use crate::items::Item;
use crate::tables::SEGMENT;
use std::ops::Range;

/// "Start page u8 (0 to 3)."
const LAST_PAGE: u8 = 3;
/// A page has as many bytes as a segment.
const PAGE: u16 = SEGMENT as u16;

/// The location counter: "a page (0 to 3) and an offset, 0 to 16,384 (past the
/// end)".
#[derive(Clone, Copy)]
pub(crate) struct Counter {
    start_page: u8,
    page: u8,
    offset: u16,
}

impl Counter {
    /// The counter at a module's start; none for "a start page or offset past
    /// its range".
    pub(crate) fn start(page: u8, offset: u16) -> Option<Counter> {
        (page <= LAST_PAGE && offset <= PAGE).then_some(Counter {
            start_page: page,
            page,
            offset,
        })
    }

    /// "Its value is page times 16,384 plus offset, carry dropped."
    pub(crate) fn value(self) -> u16 {
        (u16::from(self.page) * PAGE).wrapping_add(self.offset)
    }

    /// Takes an item, and gives the offsets that it stores to. "PAGE for a move
    /// or store outside the page."
    pub(crate) fn take(&mut self, item: Item) -> Result<Range<usize>, Refusal> {
        match item {
            Item::Byte(_) => return self.pass(1),
            Item::Word(_) => return self.pass(2),
            Item::SetPage(page) => self.set_page(page)?,
            Item::Restore => self.page = self.start_page,
            Item::Move(bits) => self.move_by(bits)?,
        }
        Ok(0..0)
    }

    fn pass(&mut self, length: u16) -> Result<Range<usize>, Refusal> {
        let start = self.offset;
        let end = start + length;
        if end > PAGE {
            return Err(Refusal::Page);
        }
        self.offset = end;
        Ok(usize::from(start)..usize::from(end))
    }

    /// "PAGE for [...] a page number above 3", which no stream has: its item has
    /// 2 bits.
    fn set_page(&mut self, page: u16) -> Result<(), Refusal> {
        if page > u16::from(LAST_PAGE) {
            return Err(Refusal::Page);
        }
        self.page = page as u8;
        Ok(())
    }

    /// "A move adds 16 bits likewise and must land in the same page."
    fn move_by(&mut self, bits: u16) -> Result<(), Refusal> {
        let offset = self.offset.wrapping_add(bits);
        if offset >= PAGE {
            return Err(Refusal::Page);
        }
        self.offset = offset;
        Ok(())
    }
}
