//! Good tables once more, sentence by sentence and without haste.

use exos_kernel::{class, Channel, Device, Tables};
use std::collections::BTreeSet;

pub fn plain_good(tables: &Tables) -> bool {
    let sentences = [
        list, classes, rooms, channels, devices, default, chain, boundary,
    ];
    counts(tables) && sentences.iter().all(|sentence| sentence(tables))
}

fn counts(t: &Tables) -> bool {
    t.segments <= 32 && t.chain_length <= 32 && t.channel_count <= 32 && t.device_count <= 16
}

fn is_zero(bytes: &[u8]) -> bool {
    bytes.iter().all(|&byte| byte == 0)
}

fn list(t: &Tables) -> bool {
    let count = usize::from(t.segments);
    let used = &t.list[..count];
    let set: BTreeSet<u8> = used.iter().copied().collect();
    count >= 2
        && set.into_iter().collect::<Vec<u8>>() == used
        && used.iter().all(|&number| number >= 8)
        && used.last() == Some(&255)
        && is_zero(&t.list[count..])
}

fn classes(t: &Tables) -> bool {
    let count = usize::from(t.segments);
    let last = t.classes[count - 1];
    t.classes[0] == 0
        && t.classes[1..count].iter().all(|c| (1..=5).contains(c))
        && (last == class::SYSTEM || last == class::SHARED)
        && t.classes.iter().filter(|&&c| c == class::SHARED).count() < 2
        && is_zero(&t.classes[count..])
}

fn rooms(t: &Tables) -> bool {
    256 <= t.r && t.r <= t.cold_r && t.cold_r <= 16_128
}

fn channels(t: &Tables) -> bool {
    let (used, unused) = t.channels.split_at(usize::from(t.channel_count));
    let numbers: BTreeSet<u8> = used.iter().map(|channel| channel.number).collect();
    numbers.len() == used.len()
        && !numbers.contains(&255)
        && used.iter().all(|channel| channel.device < t.device_count)
        && unused.iter().all(|channel| *channel == Channel::default())
}

fn is_name(name: &[u8], length: u8) -> bool {
    let length = usize::from(length);
    length <= 28
        && name[..length].iter().all(|byte| matches!(byte, 65..=90))
        && is_zero(&name[length..])
}

fn devices(t: &Tables) -> bool {
    let (used, unused) = t.devices.split_at(usize::from(t.device_count));
    let named = |row: usize, name: &[u8]| {
        used.get(row)
            .is_some_and(|d| d.name.get(..usize::from(d.length)) == Some(name))
    };
    let enabled = |row: usize| !used[row + 1..].iter().any(|d| d.name == used[row].name);
    named(0, b"VIDEO")
        && named(1, b"NET")
        && named(2, b"KEYBOARD")
        && used
            .iter()
            .all(|d| d.length > 0 && is_name(&d.name, d.length))
        && (0..used.len()).all(|row| used[row].enabled == enabled(row))
        && unused.iter().all(|d| *d == Device::default())
}

fn default(t: &Tables) -> bool {
    let default = &t.default;
    is_name(&default.name, default.length) && (default.length != 0 || default.unit == 0)
}

/// T - R, below zero where the line ends in the system segment.
fn over(t: &Tables) -> i64 {
    let used = &t.channels[..usize::from(t.channel_count)];
    let length: i64 = used.iter().map(|channel| 16 + i64::from(channel.n)).sum();
    length - i64::from(t.r)
}

fn chain(t: &Tables) -> bool {
    let (used, unused) = t.chain.split_at(usize::from(t.chain_length));
    let of_class =
        |row: &usize| t.classes[*row] == class::SYSTEM || t.classes[*row] == class::SHARED;
    let expected: Vec<usize> = (0..usize::from(t.segments)).filter(of_class).collect();
    let mut rows: Vec<usize> = used.iter().map(|&row| usize::from(row)).collect();
    let shared = rows
        .iter()
        .position(|&row| t.classes.get(row) == Some(&class::SHARED));
    let first = rows.first().copied();
    let last = rows.len().wrapping_sub(1);
    rows.sort_unstable();
    let length = 1 + (over(t).max(0) + 16_383) / 16_384;
    rows == expected
        && first == Some(usize::from(t.segments) - 1)
        && shared.is_none_or(|at| at == last)
        && rows.len() as i64 == length
        && is_zero(unused)
}

fn boundary(t: &Tables) -> bool {
    let over = over(t);
    let exos = if over <= 0 {
        -over
    } else {
        16_383 - (over - 1) % 16_384
    };
    let highest = if t.classes.contains(&class::SHARED) {
        exos
    } else {
        0
    };
    i64::from(t.user_boundary) <= highest
}
