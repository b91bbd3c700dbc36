//! The items of a relocatable module, as section 10.3 lays them into bits.

use std::slice;

/// An item of a module, but for the one that ends it. Its bits come "highest
/// first".
#[derive(Clone, Copy, Debug, PartialEq, Eq)]
pub enum Item {
    /// "0 then 8 bits stores a byte."
    Byte(u8),
    /// "100 then 16 stores a word."
    Word(u16),
    /// "10100 then 2 sets the run page." A page above 3 is in no module; the
    /// writer refuses it.
    SetPage(u16),
    /// "10101 restores it."
    Restore,
    /// "1011 then 16 moves the counter."
    Move(u16),
}

/// What comes next in a stream.
pub(crate) enum Next {
    /// An item.
    Item(Item),
    /// "110 ends", with padding that is zero.
    End,
}

/// The items of a stream, one after the other.
pub(crate) struct Items<'a> {
    rest: slice::Iter<'a, u8>,
    /// The bytes taken last, of which the lowest `left` bits are not read yet.
    held: u32,
    left: u32,
}

impl<'a> Items<'a> {
    pub(crate) fn of(stream: &'a [u8]) -> Self {
        Items {
            rest: stream.iter(),
            held: 0,
            left: 0,
        }
    }

    /// What comes next; none for "an illegal item, input that runs out or bad
    /// padding".
    pub(crate) fn next(&mut self) -> Option<Next> {
        if self.bits(1)? == 0 {
            return Some(Next::Item(Item::Byte(self.bits(8)? as u8)));
        }
        match self.bits(2)? {
            0b00 => Some(Next::Item(Item::Word(self.bits(16)?))),
            0b01 => self.next_of_counter().map(Next::Item),
            0b10 => self.is_padded().then_some(Next::End),
            _ => None,
        }
    }

    /// What follows 101: an item that sets the counter and stores nothing.
    fn next_of_counter(&mut self) -> Option<Item> {
        if self.bits(1)? == 1 {
            return Some(Item::Move(self.bits(16)?));
        }
        match self.bits(1)? {
            0 => Some(Item::SetPage(self.bits(2)?)),
            _ => Some(Item::Restore),
        }
    }

    /// The next bits, at most 16 of them; none where the input runs out. "Bits
    /// are read from bit 7 of the first byte." No byte is taken before a bit
    /// of it is asked for.
    fn bits(&mut self, count: u32) -> Option<u16> {
        while self.left < count {
            self.held = self.held << 8 | u32::from(*self.rest.next()?);
            self.left += 8;
        }
        self.left -= count;
        Some((self.held >> self.left & ((1 << count) - 1)) as u16)
    }

    /// "Padding must be zero": the bits that are left of the end item's byte.
    fn is_padded(&self) -> bool {
        self.held & ((1 << self.left) - 1) == 0
    }

    /// How many bytes of the stream are not taken.
    pub(crate) fn untaken(&self) -> usize {
        self.rest.len()
    }
}
