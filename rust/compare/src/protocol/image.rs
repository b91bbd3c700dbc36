//! The tables as bytes and back.

use exos_kernel::{Channel, DefaultName, Device, Tables, NAME};
use std::array;

/// The length of the image.
pub const IMAGE: usize = 776;
/// The bytes of a row of channels.
pub const CHANNEL: usize = 5;
/// The bytes of a row of devices.
pub const DEVICE: usize = NAME + 2;

/// The tables as bytes.
pub type Image = [u8; IMAGE];

/// Where each field of the tables stands in the image.
pub mod at {
    use super::{CHANNEL, DEVICE};
    use exos_kernel::{NAME, ROWS_OF_CHANNELS, ROWS_OF_DEVICES, ROWS_OF_SEGMENTS};

    /// How many segments.
    pub const SEGMENTS: usize = 0;
    /// The RAM list.
    pub const LIST: usize = SEGMENTS + 1;
    /// The classes.
    pub const CLASSES: usize = LIST + ROWS_OF_SEGMENTS;
    /// The chain's length.
    pub const CHAIN_LENGTH: usize = CLASSES + ROWS_OF_SEGMENTS;
    /// The chain.
    pub const CHAIN: usize = CHAIN_LENGTH + 1;
    /// The user boundary.
    pub const USER_BOUNDARY: usize = CHAIN + ROWS_OF_SEGMENTS;
    /// R.
    pub const R: usize = USER_BOUNDARY + 2;
    /// The cold R.
    pub const COLD_R: usize = R + 2;
    /// How many channels.
    pub const CHANNEL_COUNT: usize = COLD_R + 2;
    /// The channels.
    pub const CHANNELS: usize = CHANNEL_COUNT + 1;
    /// How many devices.
    pub const DEVICE_COUNT: usize = CHANNELS + ROWS_OF_CHANNELS * CHANNEL;
    /// The devices.
    pub const DEVICES: usize = DEVICE_COUNT + 1;
    /// The default name.
    pub const DEFAULT_NAME: usize = DEVICES + ROWS_OF_DEVICES * DEVICE;
    /// Its length.
    pub const DEFAULT_LENGTH: usize = DEFAULT_NAME + NAME;
    /// The default unit.
    pub const DEFAULT_UNIT: usize = DEFAULT_LENGTH + 1;
}

/// The tables as bytes.
pub fn image_of(tables: &Tables) -> Image {
    let mut image = [0; IMAGE];
    let mut put = |at: usize, bytes: &[u8]| image[at..at + bytes.len()].copy_from_slice(bytes);
    put(at::SEGMENTS, &[tables.segments]);
    put(at::LIST, &tables.list);
    put(at::CLASSES, &tables.classes);
    put(at::CHAIN_LENGTH, &[tables.chain_length]);
    put(at::CHAIN, &tables.chain);
    put(at::USER_BOUNDARY, &tables.user_boundary.to_le_bytes());
    put(at::R, &tables.r.to_le_bytes());
    put(at::COLD_R, &tables.cold_r.to_le_bytes());
    put(at::CHANNEL_COUNT, &[tables.channel_count]);
    put(
        at::CHANNELS,
        tables.channels.map(channel_bytes).as_flattened(),
    );
    put(at::DEVICE_COUNT, &[tables.device_count]);
    put(at::DEVICES, tables.devices.map(device_bytes).as_flattened());
    put(at::DEFAULT_NAME, &tables.default.name);
    put(at::DEFAULT_LENGTH, &[tables.default.length]);
    put(at::DEFAULT_UNIT, &[tables.default.unit]);
    image
}

fn channel_bytes(channel: Channel) -> [u8; CHANNEL] {
    let [n0, n1] = channel.n.to_le_bytes();
    [channel.number, channel.device, channel.unit, n0, n1]
}

fn device_bytes(device: Device) -> [u8; DEVICE] {
    let mut bytes = [0; DEVICE];
    bytes[..NAME].copy_from_slice(&device.name);
    bytes[NAME..].copy_from_slice(&[device.length, u8::from(device.enabled)]);
    bytes
}

/// The tables of any image.
pub fn tables_of(image: &Image) -> Tables {
    let word = |at: usize| u16::from_le_bytes([image[at], image[at + 1]]);
    Tables {
        segments: image[at::SEGMENTS],
        list: part(image, at::LIST),
        classes: part(image, at::CLASSES),
        chain_length: image[at::CHAIN_LENGTH],
        chain: part(image, at::CHAIN),
        user_boundary: word(at::USER_BOUNDARY),
        r: word(at::R),
        cold_r: word(at::COLD_R),
        channel_count: image[at::CHANNEL_COUNT],
        channels: array::from_fn(|row| channel_of(&part(image, at::CHANNELS + row * CHANNEL))),
        device_count: image[at::DEVICE_COUNT],
        devices: array::from_fn(|row| device_of(&part(image, at::DEVICES + row * DEVICE))),
        default: DefaultName {
            name: part(image, at::DEFAULT_NAME),
            length: image[at::DEFAULT_LENGTH],
            unit: image[at::DEFAULT_UNIT],
        },
    }
}

fn channel_of(&[number, device, unit, n0, n1]: &[u8; CHANNEL]) -> Channel {
    Channel {
        number,
        device,
        unit,
        n: u16::from_le_bytes([n0, n1]),
    }
}

fn device_of(bytes: &[u8; DEVICE]) -> Device {
    let [name @ .., length, enabled] = *bytes;
    Device {
        name,
        length,
        enabled: enabled != 0,
    }
}

fn part<const LENGTH: usize>(image: &Image, at: usize) -> [u8; LENGTH] {
    let mut bytes = [0; LENGTH];
    bytes.copy_from_slice(&image[at..at + LENGTH]);
    bytes
}

#[cfg(test)]
mod tests {
    use super::*;
    use exos_kernel::ROWS_OF_DEVICES;

    #[test]
    fn the_image_has_the_offsets_of_the_protocol() {
        let offsets = [
            (at::LIST, 1),
            (at::CLASSES, 33),
            (at::CHAIN_LENGTH, 65),
            (at::CHAIN, 66),
            (at::USER_BOUNDARY, 98),
            (at::R, 100),
            (at::COLD_R, 102),
            (at::CHANNEL_COUNT, 104),
            (at::CHANNELS, 105),
            (at::DEVICE_COUNT, 265),
            (at::DEVICES, 266),
            (at::DEFAULT_NAME, 746),
            (at::DEFAULT_LENGTH, 774),
            (at::DEFAULT_UNIT, 775),
        ];
        for (is, should_be) in offsets {
            assert_eq!(is, should_be);
        }
    }

    #[test]
    fn an_image_is_read_back() {
        let mut image = [0; IMAGE];
        for (at, byte) in image.iter_mut().enumerate() {
            *byte = (at * 7 + 3) as u8;
        }
        for row in 0..ROWS_OF_DEVICES {
            image[at::DEVICES + row * DEVICE + NAME + 1] = (row % 2) as u8;
        }
        let tables = tables_of(&image);
        assert_eq!(image_of(&tables), image);
        assert_eq!(tables.r, u16::from_le_bytes([image[100], image[101]]));
        assert_eq!(
            tables.channels[1].n,
            u16::from_le_bytes([image[113], image[114]])
        );
        assert_eq!(tables.devices[1].name[0], image[296]);
    }

    #[test]
    fn an_enabled_byte_other_than_0_is_true() {
        let mut image = [0; IMAGE];
        image[at::DEVICES + NAME + 1] = 7;
        let tables = tables_of(&image);
        assert!(tables.devices[0].enabled);
        assert_eq!(image_of(&tables)[at::DEVICES + NAME + 1], 1);
    }
}
