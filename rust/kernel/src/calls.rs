//! The calls, and the one door to them.

use crate::answers::{Refusal, Reply};
use crate::good::is_usable;
use crate::tables::Tables;
use crate::{channels, devices, modules, reset, segments, user};

/// A call with its arguments, in the order of the table of bodies.
#[derive(Clone, Copy, Debug, PartialEq, Eq)]
pub enum Call<'a> {
    /// 256
    Start {
        /// The room in the system segment.
        r: u16,
        /// The segment numbers.
        list: &'a [u8],
    },
    /// 0
    Reset {
        /// Bits 4, 5 and 6.
        flags: u8,
    },
    /// 1
    Open {
        /// The channel number.
        channel: u8,
        /// "The driver's reply to an open is an input."
        driver_status: u8,
        /// The length of the buffer.
        n: u16,
        /// Device, unit and file.
        name: &'a [u8],
    },
    /// 3
    Close {
        /// The channel number.
        channel: u8,
    },
    /// 6
    Read {
        /// The channel number.
        channel: u8,
        /// Where in the buffer.
        offset: u16,
        /// How many bytes at most.
        length: u16,
    },
    /// 8
    Write {
        /// The channel number.
        channel: u8,
        /// Where in the buffer.
        offset: u16,
        /// The bytes.
        data: &'a [u8],
    },
    /// 19
    Default {
        /// The default unit.
        unit: u8,
        /// The default name.
        name: &'a [u8],
    },
    /// 20
    Status,
    /// 21
    Link {
        /// How many bytes of RAM the device takes.
        m: u16,
        /// The device's name.
        name: &'a [u8],
    },
    /// 22
    Boundary,
    /// 23
    SetUserBoundary {
        /// The new user boundary.
        value: u16,
    },
    /// 24
    Allocate {
        /// 0 user or 1 device.
        caller: u8,
    },
    /// 25
    Free {
        /// 0 user or 1 device.
        caller: u8,
        /// The segment number.
        segment: u8,
    },
    /// 30
    LoadModule {
        /// The segment number.
        segment: u8,
        /// The start page.
        page: u8,
        /// The start offset.
        offset: u16,
        /// The module, and whatever follows it.
        stream: &'a [u8],
    },
    /// 257
    Store {
        /// The segment number.
        segment: u8,
        /// Where in the segment.
        offset: u16,
        /// The bytes.
        data: &'a [u8],
    },
    /// 258
    Load {
        /// The segment number.
        segment: u8,
        /// Where in the segment.
        offset: u16,
        /// How many bytes.
        length: u16,
    },
    /// "Kind unknown; body short of its fixed fields, or longer without name,
    /// data or list."
    Unknown {
        /// The kind; that of a start, if its body was short.
        kind: u16,
    },
}

/// The kind of a start.
pub(crate) const START: u16 = 256;

impl Call<'_> {
    /// Whether the kind is start, with whatever body: "TABLES: not for start".
    fn is_start(&self) -> bool {
        matches!(self, Call::Start { .. } | Call::Unknown { kind: START })
    }
}

/// Makes a call on the tables and the RAM, 16,384 bytes a segment in list
/// order. Read, load and status "fill the first b bytes of the lent output;
/// the rest stays". A refused call changes nothing.
pub fn call(tables: &mut Tables, ram: &mut [u8], call: Call, output: &mut [u8]) -> Reply {
    perform(tables, ram, call, output).unwrap_or_else(Reply::from)
}

/// "Several at once: the lowest number wins": each call below checks in rising
/// order of the numbers, but for the items of a module, which have an order of
/// their own.
fn perform(
    tables: &mut Tables,
    ram: &mut [u8],
    call: Call,
    output: &mut [u8],
) -> Result<Reply, Refusal> {
    if !call.is_start() && !is_usable(tables, ram) {
        return Err(Refusal::Tables);
    }
    match call {
        Call::Start { r, list } => reset::start(tables, ram, r, list),
        Call::Reset { flags } => reset::reset(tables, ram, flags),
        Call::Open {
            channel,
            driver_status,
            n,
            name,
        } => channels::open(tables, ram, channel, driver_status, n, name),
        Call::Close { channel } => channels::close(tables, ram, channel),
        Call::Read {
            channel,
            offset,
            length,
        } => channels::read(tables, ram, channel, offset, length, output),
        Call::Write {
            channel,
            offset,
            data,
        } => channels::write(tables, ram, channel, offset, data),
        Call::Default { unit, name } => devices::set_default(tables, unit, name),
        Call::Status => segments::status(tables, output),
        Call::Link { m, name } => devices::link(tables, ram, m, name),
        Call::Boundary => Ok(segments::boundary(tables)),
        Call::SetUserBoundary { value } => segments::set_user_boundary(tables, value),
        Call::Allocate { caller } => segments::allocate(tables, caller),
        Call::Free { caller, segment } => segments::free(tables, caller, segment),
        Call::LoadModule {
            segment,
            page,
            offset,
            stream,
        } => modules::load(tables, ram, segment, page, offset, stream),
        Call::Store {
            segment,
            offset,
            data,
        } => user::store(tables, ram, segment, offset, data),
        Call::Load {
            segment,
            offset,
            length,
        } => user::load(tables, ram, segment, offset, length, output),
        Call::Unknown { .. } => Err(Refusal::Call),
    }
}
