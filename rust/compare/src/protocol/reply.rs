//! A reply: all that is compared.

use exoslog::counted;
use std::fmt::{self, Display, Formatter};

/// The length of a reply.
pub const REPLY: usize = 50;

/// The reply to a request.
#[derive(Clone, Copy, Debug, PartialEq, Eq)]
pub struct Reply {
    /// The answer's number.
    pub number: u16,
    /// The first value.
    pub a: u16,
    /// The second value.
    pub b: u16,
    /// The record bytes that the call moved.
    pub moved: u32,
    /// The digest of the tables' image after the call.
    pub image: u64,
    /// The digest of the RAM after the call.
    pub ram: u64,
    /// The digest of the lent output after the call.
    pub output: u64,
    /// Where the part that is lent of a buffer after the call starts in the
    /// RAM; 0, which is in the page zero segment, where nothing is lent.
    pub part: u64,
    /// The digest of that part's bytes.
    pub part_bytes: u64,
    /// What is wrong with it, of which a program's reply says nothing.
    pub fault: Option<Fault>,
}

/// What is wrong with a kernel's reply, whatever the program replies.
#[derive(Clone, Copy, Debug, PartialEq, Eq)]
pub enum Fault {
    /// It panicked.
    Panicked,
    /// It wrote a module that does not read back as the list.
    NotReadBack,
    /// It loaded a module that its items do not make.
    NotOfItems,
    /// It did not close the channel that the request before opened.
    NotClosedAgain,
    /// It did, and the tables are not those before the open.
    TablesMarked,
    /// It did, and the RAM is not that before the open with the record zero.
    RamMarked,
    /// It reported another number of bytes moved than is due by order 8.
    Moved {
        /// What it reported.
        reported: u32,
        /// What is due.
        due: u32,
    },
    /// It reported more than T before the call.
    MovedPastT {
        /// What it reported.
        reported: u32,
        /// T before the call.
        t: u32,
    },
}

impl Display for Fault {
    fn fmt(&self, to: &mut Formatter<'_>) -> fmt::Result {
        to.write_str(match *self {
            Fault::Panicked => "the kernel panicked",
            Fault::NotReadBack => "the kernel's module does not read back as the list",
            Fault::NotOfItems => "the kernel loads a module that its items do not make",
            Fault::NotClosedAgain => "the kernel does not close again what it opened",
            Fault::TablesMarked => "the kernel's open and close leave a mark in the tables",
            Fault::RamMarked => "the kernel's open and close leave a mark in the RAM",
            Fault::Moved { reported, due } => {
                return write!(to, "{}, {due} are due", reports(reported));
            }
            Fault::MovedPastT { reported, t } => {
                return write!(to, "{}, T was {t}", reports(reported));
            }
        })
    }
}

fn reports(moved: u32) -> String {
    let bytes = counted(moved as usize, "byte");
    format!("the kernel reports {bytes} moved")
}

/// What stands for the answer of a kernel that panicked: no call gives it.
const PANICKED: u16 = 255;

impl Reply {
    /// What stands for the reply of a kernel that panicked.
    pub fn of_panic() -> Reply {
        Reply {
            number: PANICKED,
            a: 0,
            b: 0,
            moved: 0,
            image: 0,
            ram: 0,
            output: 0,
            part: 0,
            part_bytes: 0,
            fault: Some(Fault::Panicked),
        }
    }

    /// Whether this stands for the reply of a kernel that panicked.
    pub fn panicked(&self) -> bool {
        self.fault == Some(Fault::Panicked)
    }

    /// The reply that was sent as these bytes.
    pub fn from_bytes(bytes: &[u8; REPLY]) -> Reply {
        let number = |at: usize, length: usize| {
            let bytes = bytes[at..at + length].iter().rev();
            bytes.fold(0, |sum, &byte| sum << 8 | u64::from(byte))
        };
        Reply {
            number: number(0, 2) as u16,
            a: number(2, 2) as u16,
            b: number(4, 2) as u16,
            moved: number(6, 4) as u32,
            image: number(10, 8),
            ram: number(18, 8),
            output: number(26, 8),
            part: number(34, 8),
            part_bytes: number(42, 8),
            fault: None,
        }
    }
}

#[cfg(test)]
mod tests {
    use super::*;

    #[test]
    fn a_reply_as_it_is_read() {
        let mut bytes = [0; REPLY];
        for (at, byte) in (0..).zip(&mut bytes) {
            *byte = at;
        }
        let reply = Reply::from_bytes(&bytes);
        assert_eq!((reply.number, reply.a, reply.b), (0x0100, 0x0302, 0x0504));
        assert_eq!(reply.moved, 0x0908_0706);
        assert_eq!(reply.image, 0x1110_0F0E_0D0C_0B0A);
        assert_eq!(reply.ram, 0x1918_1716_1514_1312);
        assert_eq!(reply.output, 0x2120_1F1E_1D1C_1B1A);
        assert_eq!(reply.part, 0x2928_2726_2524_2322);
        assert_eq!(reply.part_bytes, 0x3130_2F2E_2D2C_2B2A);
        assert_eq!(reply.fault, None);
    }
}
