//! The tables as a value, and the sums that are read off them.

/// "A segment has 16,384 bytes."
pub const SEGMENT: usize = 16_384;
/// "The RAM list has 2 to 32 segment numbers."
pub const ROWS_OF_SEGMENTS: usize = 32;
/// "At most 32 open channels."
pub const ROWS_OF_CHANNELS: usize = 32;
/// "16 devices."
pub const ROWS_OF_DEVICES: usize = 16;
/// "Names are 1 to 28 capitals."
pub const NAME: usize = 28;
/// "A channel's record is a 16-byte heading and then its buffer of n bytes."
pub const HEADING: usize = 16;
/// "256 <= R <= 16,128": the least R.
pub const LEAST_R: u16 = 256;
/// "256 <= R <= 16,128": the most R.
pub const MOST_R: u16 = 16_128;

/// The class bytes: "Each other segment has one class: free, user, system,
/// device, shared."
pub mod class {
    /// The page zero segment, "outside every allocation", and unused rows.
    pub const NONE: u8 = 0;
    /// Held by nobody.
    pub const FREE: u8 = 1;
    /// Held by the user.
    pub const USER: u8 = 2;
    /// Held by the system.
    pub const SYSTEM: u8 = 3;
    /// Held by a device.
    pub const DEVICE: u8 = 4;
    /// Held by the system above and the user below.
    pub const SHARED: u8 = 5;
}

/// An open channel: "number, device, unit, n".
#[derive(Clone, Copy, Debug, Default, PartialEq, Eq)]
pub struct Channel {
    /// The channel number, 0 to 254.
    pub number: u8,
    /// The row of its device.
    pub device: u8,
    /// The unit it was opened with.
    pub unit: u8,
    /// The length of its buffer.
    pub n: u16,
}

impl Channel {
    /// "Length L = 16 + n."
    pub(crate) fn length(&self) -> usize {
        HEADING + usize::from(self.n)
    }
}

/// A row of the device table.
#[derive(Clone, Copy, Debug, Default, PartialEq, Eq)]
pub struct Device {
    /// The name, zero after its length.
    pub name: [u8; NAME],
    /// The length of the name.
    pub length: u8,
    /// "A device is enabled exactly if no later one has its name."
    pub enabled: bool,
}

/// "Default name with its unit."
#[derive(Clone, Copy, Debug, Default, PartialEq, Eq)]
pub struct DefaultName {
    /// The name, zero after its length.
    pub name: [u8; NAME],
    /// The length of the name; "the default may be empty".
    pub length: u8,
    /// The unit, 0 where the name is empty.
    pub unit: u8,
}

/// "They hold the list, classes, system chain, user boundary, R, cold R,
/// channels in line order (number, device, unit, n), devices and default name
/// with its unit. Unused rows and bytes of the tables are zero."
///
/// Any field may hold any value; [`good`](crate::good) tells good tables.
#[derive(Clone, Debug, Default, PartialEq, Eq)]
pub struct Tables {
    /// How many rows of `list` and `classes` are used.
    pub segments: u8,
    /// The segment numbers, "strictly rising".
    pub list: [u8; ROWS_OF_SEGMENTS],
    /// The class byte of each row of the list, see [`class`].
    pub classes: [u8; ROWS_OF_SEGMENTS],
    /// How many rows of `chain` are used.
    pub chain_length: u8,
    /// The system chain, as rows of the list.
    pub chain: [u8; ROWS_OF_SEGMENTS],
    /// The user boundary, 0 with nothing shared.
    pub user_boundary: u16,
    /// "R is the room in the system segment for channels."
    pub r: u16,
    /// "Start fixes the cold R."
    pub cold_r: u16,
    /// How many rows of `channels` are used.
    pub channel_count: u8,
    /// The open channels "in line order".
    pub channels: [Channel; ROWS_OF_CHANNELS],
    /// How many rows of `devices` are used.
    pub device_count: u8,
    /// The devices in linking order.
    pub devices: [Device; ROWS_OF_DEVICES],
    /// The default name and unit.
    pub default: DefaultName,
}

/// Views of tables whose counts are within their arrays.
impl Tables {
    pub(crate) fn used_list(&self) -> &[u8] {
        &self.list[..usize::from(self.segments)]
    }

    pub(crate) fn used_classes(&self) -> &[u8] {
        &self.classes[..usize::from(self.segments)]
    }

    pub(crate) fn used_chain(&self) -> &[u8] {
        &self.chain[..usize::from(self.chain_length)]
    }

    pub(crate) fn used_channels(&self) -> &[Channel] {
        &self.channels[..usize::from(self.channel_count)]
    }

    pub(crate) fn used_devices(&self) -> &[Device] {
        &self.devices[..usize::from(self.device_count)]
    }

    /// How many segments are of a class other than [`class::NONE`], which
    /// unused rows have too.
    pub(crate) fn count(&self, class: u8) -> u8 {
        let rows = self.classes.iter();
        rows.map(|other| u8::from(*other == class)).sum()
    }

    /// "T is the sum of their lengths."
    pub(crate) fn line_length(&self) -> usize {
        self.used_channels().iter().map(Channel::length).sum()
    }

    /// The places of the present chain, the user's part of a shared segment
    /// among them.
    pub(crate) fn chain_room(&self) -> usize {
        usize::from(self.r) + SEGMENT * (usize::from(self.chain_length) - 1)
    }

    /// "EXOS boundary: R-T if T <= R, else 16,383 - ((T-R-1) mod 16,384)."
    pub(crate) fn exos_boundary(&self) -> u16 {
        exos_boundary(self.r, self.line_length())
    }
}

/// "The chain has 1 segment if T <= R, else 1 plus (T-R)/16,384 rounded up."
pub(crate) fn chain_length(r: u16, t: usize) -> usize {
    1 + t.saturating_sub(usize::from(r)).div_ceil(SEGMENT)
}

/// "EXOS boundary: R-T if T <= R, else 16,383 - ((T-R-1) mod 16,384)."
pub(crate) fn exos_boundary(r: u16, t: usize) -> u16 {
    let room = usize::from(r);
    let boundary = if t <= room {
        room - t
    } else {
        SEGMENT - 1 - (t - room - 1) % SEGMENT
    };
    boundary as u16
}
