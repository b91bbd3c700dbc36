//! When tables are good.
//!
//! Every call but start asks this first, so the tests run over whole arrays
//! of fixed size and without leaving early: the compiler then takes many rows
//! at a time.

use crate::devices::BUILT_IN;
use crate::tables::{
    chain_length, class, exos_boundary, Channel, Device, Tables, LEAST_R, MOST_R, NAME,
    ROWS_OF_CHANNELS, ROWS_OF_DEVICES, ROWS_OF_SEGMENTS, SEGMENT,
};
use std::mem;

/// Whether the tables are good. Any tables may be asked about.
pub fn good(tables: &Tables) -> bool {
    good_counts(tables)
        && good_list(tables)
        && good_classes(tables)
        && good_rooms(tables)
        && good_devices(tables)
        && good_channels(tables)
        && good_line(tables)
        && good_default(tables)
}

/// What every call but start asks for: "TABLES: tables not good, or RAM length
/// wrong."
pub(crate) fn is_usable(tables: &Tables, ram: &[u8]) -> bool {
    ram.len() == SEGMENT * usize::from(tables.segments) && good(tables)
}

/// "2 to 32 segment numbers, strictly rising, none in 0 to 7, the last 255."
pub(crate) fn is_segment_list(list: &[u8]) -> bool {
    (2..=ROWS_OF_SEGMENTS).contains(&list.len())
        && list[0] > 7
        && list[list.len() - 1] == 255
        && list.windows(2).all(|pair| pair[0] < pair[1])
}

/// "256 <= R <= 16,128."
pub(crate) fn is_room(r: u16) -> bool {
    (LEAST_R..=MOST_R).contains(&r)
}

/// Whether all items pass, with no early end.
fn every<T>(items: impl IntoIterator<Item = T>, test: impl Fn(T) -> bool) -> bool {
    items.into_iter().fold(true, |all, item| all & test(item))
}

/// "Unused rows and bytes of the tables are zero."
fn zero_after(bytes: &[u8], used: u8) -> bool {
    every((0..).zip(bytes), |(row, byte): (u8, _)| {
        (row < used) | (*byte == 0)
    })
}

fn good_counts(tables: &Tables) -> bool {
    (2..=ROWS_OF_SEGMENTS).contains(&usize::from(tables.segments))
        && (1..=ROWS_OF_SEGMENTS).contains(&usize::from(tables.chain_length))
        && usize::from(tables.channel_count) <= ROWS_OF_CHANNELS
        && (BUILT_IN.len()..=ROWS_OF_DEVICES).contains(&usize::from(tables.device_count))
}

fn good_list(tables: &Tables) -> bool {
    is_segment_list(tables.used_list()) && zero_after(&tables.list, tables.segments)
}

/// "Each other segment has one class: free, user, system, device, shared."
/// That 255 is system or shared and "at most one segment is shared" follow
/// from the chain, which starts at 255 and has a shared one last.
fn good_classes(tables: &Tables) -> bool {
    tables.classes[0] == class::NONE
        && every(&tables.used_classes()[1..], |class| {
            (class::FREE..=class::SHARED).contains(class)
        })
        && zero_after(&tables.classes, tables.segments)
}

/// "Cold R is at least R and at most 16,128."
fn good_rooms(tables: &Tables) -> bool {
    is_room(tables.r) && (tables.r..=MOST_R).contains(&tables.cold_r)
}

/// "Devices 0, 1, 2 are VIDEO, NET, KEYBOARD"; "names are 1 to 28 capitals";
/// "a device is enabled exactly if no later one has its name".
fn good_devices(tables: &Tables) -> bool {
    let (used, unused) = tables.devices.split_at(usize::from(tables.device_count));
    used.iter().zip(&BUILT_IN).all(|(a, b)| same_name(a, b))
        && used[BUILT_IN.len()..]
            .iter()
            .all(|device| device.length > 0 && is_name(&device.name, device.length))
        && good_enabling(used)
        && unused.iter().all(is_unused_device)
}

/// "A device is enabled exactly if no later one has its name." From the last
/// device back: later names are searched only where one has the same mark.
fn good_enabling(devices: &[Device]) -> bool {
    let mut marks = 0;
    devices.iter().enumerate().rev().all(|(row, device)| {
        let mark = mark(device);
        let has_later = marks & mark != 0
            && devices[row + 1..]
                .iter()
                .any(|later| same_name(device, later));
        marks |= mark;
        device.enabled != has_later
    })
}

/// One of 64 bits, the same for the same name.
fn mark(device: &Device) -> u64 {
    let [a, b, c, d, e, f, g, h, ..] = device.name;
    let start = u64::from_le_bytes([a, b, c, d, e, f, g, h]);
    1 << (start.wrapping_mul(0x9E37_79B9_7F4A_7C15) >> 58)
}

fn is_unused_device(device: &Device) -> bool {
    device.length == 0 && !device.enabled && zero_after(&device.name, 0)
}

fn same_name(one: &Device, other: &Device) -> bool {
    one.length == other.length && one.name == other.name
}

/// At most 28 capitals, zero after them.
fn is_name(name: &[u8; NAME], length: u8) -> bool {
    usize::from(length) <= NAME
        && every((0..).zip(name), |(at, byte): (u8, &u8)| {
            if at < length {
                byte.is_ascii_uppercase()
            } else {
                *byte == 0
            }
        })
}

/// "At most 32 open channels, numbered 0 to 254"; "channel numbers differ,
/// each channel names a device in the table".
fn good_channels(tables: &Tables) -> bool {
    let (used, unused) = tables.channels.split_at(usize::from(tables.channel_count));
    every(used, |channel| {
        (channel.number != 255) & (channel.device < tables.device_count)
    }) && all_differ(used.iter().map(|channel| channel.number))
        && every(unused, |channel| *channel == Channel::default())
}

fn all_differ(numbers: impl Iterator<Item = u8>) -> bool {
    let mut seen = [false; 256];
    numbers.fold(true, |all, number| {
        all & !mem::replace(&mut seen[usize::from(number)], true)
    })
}

/// The chain and the boundaries, by the line's length.
fn good_line(tables: &Tables) -> bool {
    let t = tables.line_length();
    usize::from(tables.chain_length) == chain_length(tables.r, t)
        && good_chain(tables)
        && good_user_boundary(tables, exos_boundary(tables.r, t))
}

/// "The chain below is exactly the system and shared segments without a
/// repeat and starts at 255, [...] a shared segment is the chain's last."
fn good_chain(tables: &Tables) -> bool {
    let chain = tables.used_chain();
    let (last, earlier) = (chain[chain.len() - 1], &chain[..chain.len() - 1]);
    let class = |row: u8| tables.used_classes().get(usize::from(row)).copied();
    chain[0] == tables.segments - 1
        && tables.chain_length == tables.count(class::SYSTEM) + tables.count(class::SHARED)
        && matches!(class(last), Some(class::SYSTEM | class::SHARED))
        && earlier.iter().all(|&row| class(row) == Some(class::SYSTEM))
        && all_differ(chain.iter().copied())
        && zero_after(&tables.chain, tables.chain_length)
}

/// "The user boundary is at most the EXOS boundary if shared and 0
/// otherwise."
fn good_user_boundary(tables: &Tables, exos_boundary: u16) -> bool {
    let is_shared = tables.count(class::SHARED) == 1;
    tables.user_boundary <= if is_shared { exos_boundary } else { 0 }
}

/// "The default may be empty, with unit 0."
fn good_default(tables: &Tables) -> bool {
    let default = &tables.default;
    is_name(&default.name, default.length) && (default.length > 0 || default.unit == 0)
}
