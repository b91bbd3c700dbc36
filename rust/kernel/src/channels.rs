//! Channels and their records on the line.

use crate::answers::{Refusal, Reply};
use crate::devices;
use crate::good::is_usable;
use crate::line::Line;
use crate::names;
use crate::segments;
use crate::tables::{chain_length, Channel, Tables, HEADING, ROWS_OF_CHANNELS};

/// The one number that no channel has.
const NO_CHANNEL: u8 = 255;
/// The heading's kind.
const KIND: u16 = 1;

/// Where the record of an open channel was found.
struct Found {
    row: usize,
    start: usize,
    n: usize,
}

impl Found {
    /// The position of an offset of the buffer.
    fn position(&self, offset: usize) -> usize {
        self.start + HEADING + offset
    }

    /// How many bytes remain from an offset on: order 2: "0 at or past the end".
    fn remaining(&self, offset: usize) -> usize {
        self.n.saturating_sub(offset)
    }
}

/// "CHANNEL: 255, or not open."
fn find(tables: &Tables, number: u8) -> Result<Found, Refusal> {
    let mut start = 0;
    for (row, channel) in tables.used_channels().iter().enumerate() {
        if channel.number == number {
            let n = usize::from(channel.n);
            return Ok(Found { row, start, n });
        }
        start += channel.length();
    }
    Err(Refusal::Channel)
}

/// "Open appends a record, its buffer zero."
pub(crate) fn open(
    tables: &mut Tables,
    ram: &mut [u8],
    number: u8,
    driver_status: u8,
    n: u16,
    name: &[u8],
) -> Result<Reply, Refusal> {
    if number == NO_CHANNEL {
        return Err(Refusal::Channel);
    }
    if find(tables, number).is_ok() {
        return Err(Refusal::Exists);
    }
    let parts = names::parse(name).ok_or(Refusal::Name)?;
    let (device, unit) = devices::find(tables, &parts)?;
    if driver_status != 0 {
        return Err(Refusal::Driver(driver_status));
    }
    let channel = Channel {
        number,
        device,
        unit,
        n,
    };
    append(tables, ram, channel)?;
    Ok(Reply::done(device, u16::from(unit)))
}

fn append(tables: &mut Tables, ram: &mut [u8], channel: Channel) -> Result<(), Refusal> {
    if usize::from(tables.channel_count) == ROWS_OF_CHANNELS {
        return Err(Refusal::Full);
    }
    let start = tables.line_length();
    let t = start + channel.length();
    if !segments::has_room(tables, t) {
        return Err(Refusal::Room);
    }
    segments::lengthen_chain(tables, chain_length(tables.r, t));
    tables.channels[usize::from(tables.channel_count)] = channel;
    tables.channel_count += 1;
    let line = Line::of(tables);
    line.put(ram, start, &heading(&channel));
    line.clear(ram, start + HEADING..t);
    Ok(())
}

/// "Heading, little-endian: length L in 4 bytes, kind 1 in 2 bytes, channel,
/// device, unit, 7 zero bytes."
fn heading(channel: &Channel) -> [u8; HEADING] {
    let mut heading = [0; HEADING];
    heading[..4].copy_from_slice(&(channel.length() as u32).to_le_bytes());
    heading[4..6].copy_from_slice(&KIND.to_le_bytes());
    heading[6..9].copy_from_slice(&[channel.number, channel.device, channel.unit]);
    heading
}

/// "Close removes one; later records move up and keep all their bytes;
/// positions that leave the line become zero." What it reports is by order 8: "for
/// close the lengths of the records after the closed one".
pub(crate) fn close(tables: &mut Tables, ram: &mut [u8], number: u8) -> Result<Reply, Refusal> {
    let found = find(tables, number)?;
    let end = found.start + HEADING + found.n;
    let t = tables.line_length();
    let left = t - (end - found.start);
    let line = Line::of(tables);
    let moved = line.move_up(ram, end..t, found.start);
    line.clear(ram, left..t);
    remove(tables, found.row);
    segments::shorten_chain(tables, chain_length(tables.r, left));
    Ok(Reply::done(0, 0).having_moved(moved))
}

fn remove(tables: &mut Tables, row: usize) {
    let last = usize::from(tables.channel_count) - 1;
    tables.channels.copy_within(row + 1..=last, row);
    tables.channels[last] = Channel::default();
    tables.channel_count -= 1;
}

/// Closes every channel, as resets do.
pub(crate) fn close_all(tables: &mut Tables, ram: &mut [u8]) {
    Line::of(tables).clear(ram, 0..tables.line_length());
    tables.channels = Default::default();
    tables.channel_count = 0;
    segments::shorten_chain(tables, 1);
}

/// Order 2: "A channel read now gives the bytes that remain, up to the length
/// asked; b is their number, 0 at or past the end"; "read gives RANGE only where
/// the lent output is shorter than what it would give".
pub(crate) fn read(
    tables: &Tables,
    ram: &[u8],
    number: u8,
    offset: u16,
    length: u16,
    output: &mut [u8],
) -> Result<Reply, Refusal> {
    let found = find(tables, number)?;
    let offset = usize::from(offset);
    let given = found.remaining(offset).min(usize::from(length));
    let lent = output.get_mut(..given).ok_or(Refusal::Range)?;
    Line::of(tables).take(ram, found.position(offset), lent);
    Ok(Reply::done(0, given as u16))
}

/// Writes into a buffer: "RANGE: offset + length past the end"; order 2: "Write,
/// store and load keep RANGE."
pub(crate) fn write(
    tables: &Tables,
    ram: &mut [u8],
    number: u8,
    offset: u16,
    data: &[u8],
) -> Result<Reply, Refusal> {
    let found = find(tables, number)?;
    let offset = usize::from(offset);
    if offset + data.len() > found.n {
        return Err(Refusal::Range);
    }
    Line::of(tables).put(ram, found.position(offset), data);
    Ok(Reply::done(0, data.len() as u16))
}

/// What [`lend`] answers.
#[derive(Clone, Copy, Debug, PartialEq, Eq)]
pub enum Lent<'a> {
    /// The buffer lies in one segment: its bytes in RAM order, so that the
    /// buffer's last byte comes first, and where they start in the RAM.
    Part {
        /// The index of `bytes` in the RAM.
        start: usize,
        /// The buffer's bytes and nothing else.
        bytes: &'a [u8],
    },
    /// The buffer has no bytes.
    Empty,
    /// The buffer lies in more than one segment.
    Split,
    /// The channel is not open.
    NotOpen,
    /// The tables are not good, or the RAM length is wrong.
    BadTables,
}

/// "A buffer's bytes are lent on, for reading only, as that part of the RAM
/// and nothing else where they lie in one segment."
pub fn lend<'a>(tables: &Tables, ram: &'a [u8], number: u8) -> Lent<'a> {
    if !is_usable(tables, ram) {
        return Lent::BadTables;
    }
    let Ok(Found { start, n, .. }) = find(tables, number) else {
        return Lent::NotOpen;
    };
    if n == 0 {
        return Lent::Empty;
    }
    let first = start + HEADING;
    match Line::of(tables).part(first..first + n) {
        Some(part) => Lent::Part {
            start: part.start,
            bytes: &ram[part],
        },
        None => Lent::Split,
    }
}
