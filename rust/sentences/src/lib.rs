//! Tables with something in every field, and changes to them that keep or
//! break one sentence on good tables (document 01) each.

mod broken;
mod kept;

pub use broken::BROKEN;
pub use kept::KEPT;

use exos_kernel::{class, Channel, DefaultName, Device, Tables, NAME};

/// A change to [`tables`]: what it is, and how it is made.
pub type Change = (&'static str, fn(&mut Tables));

/// The tables that a change leads to.
pub fn changed(change: &Change) -> Tables {
    let mut tables = tables();
    change.1(&mut tables);
    tables
}

/// A call of each kind but start, and of one unknown kind: kind and body. On
/// [`tables`] each known one is done.
pub const CALLS: [(u16, &[u8]); 16] = [
    (0, &[0]),
    (1, b"\x09\x00\x00\x00NET:"),
    (3, &[1]),
    (6, &[1, 0, 0, 1, 0]),
    (8, &[1, 0, 0, 1]),
    (19, b"\x01NET"),
    (20, &[]),
    (21, b"\x00\x00NEW"),
    (22, &[]),
    (23, &[0, 0]),
    (24, &[0]),
    (25, &[0, 252]),
    (30, &[250, 0, 0, 0, 0x00, 0xE0]),
    (257, &[250, 0, 0, 1]),
    (258, &[250, 0, 0, 1, 0]),
    (999, &[]),
];

/// 251 free, 252 the user's, 253 a device's, 254 shared; two channels, T =
/// 1,532 and R = 900, so that the EXOS boundary is 15,752; NET linked a second
/// time, then DISK; a default.
pub fn tables() -> Tables {
    let mut tables = Tables {
        segments: 6,
        chain_length: 2,
        user_boundary: 9_000,
        r: 900,
        cold_r: 1_000,
        channel_count: 2,
        device_count: 5,
        ..Tables::default()
    };
    tables.list[..6].copy_from_slice(&[250, 251, 252, 253, 254, 255]);
    tables.classes[1..6].copy_from_slice(&[
        class::FREE,
        class::USER,
        class::DEVICE,
        class::SHARED,
        class::SYSTEM,
    ]);
    tables.chain[..2].copy_from_slice(&[5, 4]);
    tables.channels[0] = channel(1, 500);
    tables.channels[1] = channel(2, 1_000);
    tables.devices[..5].copy_from_slice(&[
        device(b"VIDEO", true),
        device(b"NET", false),
        device(b"KEYBOARD", true),
        device(b"NET", true),
        device(b"DISK", true),
    ]);
    tables.default = DefaultName {
        name: name(b"NET"),
        length: 3,
        unit: 4,
    };
    tables
}

/// A channel of VIDEO.
fn channel(number: u8, n: u16) -> Channel {
    Channel {
        number,
        n,
        ..Channel::default()
    }
}

fn device(letters: &[u8], enabled: bool) -> Device {
    Device {
        name: name(letters),
        length: letters.len() as u8,
        enabled,
    }
}

fn name(letters: &[u8]) -> [u8; NAME] {
    let mut name = [0; NAME];
    name[..letters.len()].copy_from_slice(letters);
    name
}
