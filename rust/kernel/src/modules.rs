//! Loading relocatable modules (section 10.3).

use crate::answers::{Refusal, Reply};
use crate::counter::Counter;
use crate::items::{Item, Items, Next};
use crate::tables::Tables;
use crate::user::UserPart;
use std::ops::Range;

/// A stream's length fits in b; of a longer one the rest is not looked at.
const LONGEST_STREAM: usize = 65_535;

/// Takes the items of a stream in turn up to the end item or "the first item
/// at fault", hands the offsets and bytes of each store on, and gives how many
/// bytes of the stream were used.
fn read(
    stream: &[u8],
    mut counter: Counter,
    mut store: impl FnMut(Range<usize>, &[u8]) -> Result<(), Refusal>,
) -> Result<usize, Refusal> {
    let mut items = Items::of(stream);
    while let Next::Item(item) = items.next().ok_or(Refusal::Module)? {
        let value = counter.value();
        let offsets = counter.take(item)?;
        match item {
            Item::Byte(byte) => store(offsets, &[byte])?,
            Item::Word(word) => store(offsets, &word.wrapping_add(value).to_le_bytes())?,
            _ => {}
        }
    }
    Ok(stream.len() - items.untaken())
}

/// "B is the bytes used, a is 0." The whole stream is judged before a byte is
/// stored, and so it is read twice.
pub(crate) fn load(
    tables: &Tables,
    ram: &mut [u8],
    segment: u8,
    page: u8,
    offset: u16,
    stream: &[u8],
) -> Result<Reply, Refusal> {
    // "CALL also for a start page or offset past its range"
    let start = Counter::start(page, offset).ok_or(Refusal::Call)?;
    let part = UserPart::of(tables, segment)?;
    let stream = &stream[..stream.len().min(LONGEST_STREAM)];
    let used = read(stream, start, |offsets, _| part.check_store(&offsets))?;
    read(stream, start, |offsets, bytes| {
        ram[part.place(offsets)].copy_from_slice(bytes);
        Ok(())
    })?;
    Ok(Reply::done(0, used as u16))
}
