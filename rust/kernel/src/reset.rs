//! Start and the reset flags.

use crate::answers::{Refusal, Reply};
use crate::channels;
use crate::devices::BUILT_IN;
use crate::good::{is_room, is_segment_list};
use crate::segments;
use crate::tables::{class, Tables, SEGMENT};

/// "Bit 4 closes all channels."
const CLOSE: u8 = 1 << 4;
/// "Bit 5 closes all channels too, with or without bit 4, then removes
/// devices after 2, enables 0 to 2 and restores the cold R."
const RELINK: u8 = 1 << 5;
/// "Bit 6 frees all user segments and ends sharing."
const RELEASE: u8 = 1 << 6;

/// "Start zeroes all RAM, with no channel, devices 0 to 2, default name empty,
/// all but page zero and 255 free."
pub(crate) fn start(
    tables: &mut Tables,
    ram: &mut [u8],
    r: u16,
    list: &[u8],
) -> Result<Reply, Refusal> {
    if !is_segment_list(list) || !is_room(r) || ram.len() != SEGMENT * list.len() {
        return Err(Refusal::Start);
    }
    *tables = fresh(r, list);
    ram.fill(0);
    Ok(Reply::done(tables.segments, r))
}

fn fresh(r: u16, list: &[u8]) -> Tables {
    let last = list.len() - 1;
    let mut tables = Tables {
        segments: list.len() as u8,
        chain_length: 1,
        r,
        cold_r: r,
        ..Tables::default()
    };
    tables.list[..list.len()].copy_from_slice(list);
    tables.classes[1..last].fill(class::FREE);
    tables.classes[last] = class::SYSTEM;
    tables.chain[0] = last as u8;
    set_built_in(&mut tables);
    tables
}

/// Devices 0 to 2, enabled, and none after them.
fn set_built_in(tables: &mut Tables) {
    tables.devices = Default::default();
    tables.devices[..BUILT_IN.len()].copy_from_slice(&BUILT_IN);
    tables.device_count = BUILT_IN.len() as u8;
}

/// "Applied in that order; 0 does nothing."
pub(crate) fn reset(tables: &mut Tables, ram: &mut [u8], flags: u8) -> Result<Reply, Refusal> {
    if flags & !(CLOSE | RELINK | RELEASE) != 0 {
        return Err(Refusal::Flags);
    }
    if flags & (CLOSE | RELINK) != 0 {
        channels::close_all(tables, ram);
    }
    if flags & RELINK != 0 {
        set_built_in(tables);
        restore_room(tables, ram);
    }
    if flags & RELEASE != 0 {
        segments::release_user(tables);
    }
    Ok(Reply::done(0, 0))
}

/// "Restores the cold R, the RAM gained becoming zero."
fn restore_room(tables: &mut Tables, ram: &mut [u8]) {
    let base = usize::from(tables.chain[0]) * SEGMENT;
    ram[base + usize::from(tables.r)..base + usize::from(tables.cold_r)].fill(0);
    tables.r = tables.cold_r;
}
