//! Writing modules: "a writer of order 3's stream puts a list of items (byte,
//! word, set page, restore, move), the end item and zero padding into a lent
//! buffer".

use crate::answers::Refusal;
use crate::counter::Counter;
use crate::items::Item;
use std::slice;

/// "110 ends."
const END: Bits = Bits(0b110, 3);

/// Writes the module of some items, which starts at a page and an offset, to the
/// front of a buffer, and gives how many bytes it has. "PAGE for items the
/// loader's page rule would refuse from the given start, a page number above 3
/// or a start outside kind 30's range, then RANGE for a short buffer; either way
/// the buffer stays untouched."
pub fn write_module(
    page: u8,
    offset: u16,
    items: &[Item],
    buffer: &mut [u8],
) -> Result<usize, Refusal> {
    let start = Counter::start(page, offset).ok_or(Refusal::Page)?;
    check_pages(start, items)?;
    let length = length_of(items);
    let module = buffer.get_mut(..length).ok_or(Refusal::Range)?;
    write(items, module);
    Ok(length)
}

fn check_pages(mut counter: Counter, items: &[Item]) -> Result<(), Refusal> {
    items
        .iter()
        .try_for_each(|&item| counter.take(item).map(drop))
}

/// How many bytes the module of some items has.
fn length_of(items: &[Item]) -> usize {
    let items = items.iter().map(|&item| Bits::of(item));
    let bits: usize = items.chain([END]).map(|bits| bits.1 as usize).sum();
    bits.div_ceil(8)
}

/// Writes a module over as many bytes as it has.
fn write(items: &[Item], module: &mut [u8]) {
    let mut writer = Writer {
        rest: module.iter_mut(),
        held: 0,
        count: 0,
    };
    for &item in items {
        writer.put(Bits::of(item));
    }
    writer.put(END);
    writer.pad();
}

/// The lowest bits of a number, and how many: at most 20.
#[derive(Clone, Copy)]
struct Bits(u32, u32);

impl Bits {
    /// The bits of an item.
    fn of(item: Item) -> Bits {
        match item {
            Item::Byte(byte) => Bits(u32::from(byte), 9),
            Item::Word(word) => Bits(0b100 << 16 | u32::from(word), 19),
            Item::SetPage(page) => Bits(0b10100 << 2 | u32::from(page), 7),
            Item::Restore => Bits(0b10101, 5),
            Item::Move(bits) => Bits(0b1011 << 16 | u32::from(bits), 20),
        }
    }
}

/// Writes bits "from bit 7 of the first byte" on.
struct Writer<'a> {
    rest: slice::IterMut<'a, u8>,
    /// The bits put last, of which the lowest `count`, fewer than 8, are in no
    /// byte yet.
    held: u32,
    count: u32,
}

impl Writer<'_> {
    fn put(&mut self, Bits(bits, count): Bits) {
        self.held = self.held << count | bits;
        self.count += count;
        while self.count >= 8 {
            self.count -= 8;
            if let Some(byte) = self.rest.next() {
                *byte = (self.held >> self.count) as u8;
            }
        }
    }

    /// "Zero padding", up to a whole byte.
    fn pad(&mut self) {
        self.put(Bits(0, (8 - self.count) % 8));
    }
}
