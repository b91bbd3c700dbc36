//! The device table: finding, linking, and the default name.

use crate::answers::{Refusal, Reply};
use crate::line::Line;
use crate::names::{Name, Parts};
use crate::segments;
use crate::tables::{chain_length, DefaultName, Device, Tables, LEAST_R, NAME, ROWS_OF_DEVICES};

/// "Devices 0, 1, 2 are VIDEO, NET, KEYBOARD."
pub(crate) const BUILT_IN: [Device; 3] =
    [built_in(b"VIDEO"), built_in(b"NET"), built_in(b"KEYBOARD")];

const fn built_in(letters: &[u8]) -> Device {
    let mut name = [0; NAME];
    let mut at = 0;
    while at < letters.len() {
        name[at] = letters[at];
        at += 1;
    }
    Device {
        name,
        length: letters.len() as u8,
        enabled: true,
    }
}

impl Device {
    fn is_named(&self, name: &Name) -> bool {
        self.length == name.length && self.name == name.bytes
    }
}

/// Which device and unit the parts mean: "Name without unit means unit 0;
/// unit without name means the default name; neither means the default name
/// and unit. The empty default matches no device."
pub(crate) fn find(tables: &Tables, parts: &Parts) -> Result<(u8, u8), Refusal> {
    let default = &tables.default;
    let (name, unit) = match (parts.device, parts.unit) {
        (Some(name), unit) => (name, unit.unwrap_or(0)),
        (None, unit) => (default_name(default), unit.unwrap_or(default.unit)),
    };
    tables
        .used_devices()
        .iter()
        .position(|device| device.enabled && device.is_named(&name))
        .map(|row| (row as u8, unit))
        .ok_or(Refusal::Device)
}

fn default_name(default: &DefaultName) -> Name {
    Name {
        bytes: default.name,
        length: default.length,
    }
}

/// "Default upper-cases what it keeps."
pub(crate) fn set_default(tables: &mut Tables, unit: u8, name: &[u8]) -> Result<Reply, Refusal> {
    let name = Name::upper_cased(name).ok_or(Refusal::Name)?;
    tables.default = DefaultName {
        name: name.bytes,
        length: name.length,
        unit,
    };
    Ok(Reply::done(0, 0))
}

/// "Link adds a device with m bytes of RAM: R falls by m, the line keeps its
/// positions and so moves down, and offsets from the new R to the old R - 1
/// become zero."
pub(crate) fn link(
    tables: &mut Tables,
    ram: &mut [u8],
    m: u16,
    name: &[u8],
) -> Result<Reply, Refusal> {
    let name = Name::of_capitals(name).ok_or(Refusal::Name)?;
    if usize::from(tables.device_count) == ROWS_OF_DEVICES {
        return Err(Refusal::Full);
    }
    let r = lowered_room(tables, m)?;
    let moved = lower_line(tables, ram, r);
    let device = add_device(tables, &name);
    Ok(Reply::done(device, r).having_moved(moved))
}

/// "ROOM: room rule broken; link: also R-m < 256."
fn lowered_room(tables: &Tables, m: u16) -> Result<u16, Refusal> {
    tables
        .r
        .checked_sub(m)
        .filter(|&r| r >= LEAST_R)
        .filter(|_| segments::has_room(tables, tables.line_length() + usize::from(m)))
        .ok_or(Refusal::Room)
}

/// Moves the line down to the new R; how many bytes were moved, by order 8: "for a
/// link T if R falls, else 0". Counted from the old R, each byte goes m positions
/// further on and the first m positions leave the line.
fn lower_line(tables: &mut Tables, ram: &mut [u8], r: u16) -> usize {
    let t = tables.line_length();
    let m = usize::from(tables.r - r);
    segments::lengthen_chain(tables, chain_length(r, t));
    if m == 0 {
        return 0;
    }
    let line = Line::of(tables);
    let moved = line.move_down(ram, t, m);
    line.clear(ram, 0..m);
    tables.r = r;
    moved
}

/// "An older device of the same name is disabled; its channels stay."
fn add_device(tables: &mut Tables, name: &Name) -> u8 {
    let row = tables.device_count;
    let (older, rest) = tables.devices.split_at_mut(usize::from(row));
    for device in older.iter_mut().filter(|device| device.is_named(name)) {
        device.enabled = false;
    }
    rest[0] = Device {
        name: name.bytes,
        length: name.length,
        enabled: true,
    };
    tables.device_count += 1;
    row
}
