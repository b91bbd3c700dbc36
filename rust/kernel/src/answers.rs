//! The answers to calls: done, a grant, or one of the refusals.

/// The answer to a call.
#[derive(Clone, Copy, Debug, PartialEq, Eq)]
pub struct Reply {
    /// 0 done, 17 a grant, any other refused.
    pub number: u8,
    /// The first value.
    pub a: u8,
    /// The second value.
    pub b: u16,
    /// Order 8: "how many record bytes changed position or place".
    pub moved: u32,
}

/// "17 SHARED is a grant: allocate gave a shared segment, b the user
/// boundary."
pub const SHARED_GRANT: u8 = 17;

impl Reply {
    /// An answer and its values. Order 8: "Other and refused calls report 0."
    pub const fn new(number: u8, a: u8, b: u16) -> Reply {
        Reply {
            number,
            a,
            b,
            moved: 0,
        }
    }

    /// "0 is done."
    pub(crate) fn done(a: u8, b: u16) -> Reply {
        Reply::new(0, a, b)
    }

    /// The same with so many bytes moved: "Close and links of any sort report in a
    /// further value".
    pub(crate) fn having_moved(self, bytes: usize) -> Reply {
        Reply {
            moved: bytes as u32,
            ..self
        }
    }
}

/// Why a call was refused.
#[derive(Clone, Copy, Debug, PartialEq, Eq)]
pub enum Refusal {
    /// "Not for start: tables not good, or RAM length wrong."
    Tables,
    /// "Kind unknown; body short of its fixed fields, or longer without name,
    /// data or list; caller not 0 or 1."
    Call,
    /// "255, or not open (open: 255 only)."
    Channel,
    /// "Open: already open."
    Exists,
    /// "Against the rules above."
    Name,
    /// "Open: no enabled device so named."
    Device,
    /// "Driver status not 0; a is that status."
    Driver(u8),
    /// "32 channels or 16 devices already."
    Full,
    /// "Room rule broken; link: also R-m < 256."
    Room,
    /// "Nothing to allocate."
    Segment,
    /// "Segment not the caller's to free, store or load."
    Owner,
    /// "Nothing shared, or value above the EXOS boundary."
    Boundary,
    /// "Offset + length past the end, or lent output too short"; order 2: "read
    /// gives RANGE only where the lent output is shorter than what it would
    /// give".
    Range,
    /// "Store touches page zero 30h to 5Bh, save 3Dh and 3Eh."
    Guard,
    /// "A bit other than 4, 5, 6."
    Flags,
    /// "List, R or RAM length wrong."
    Start,
    /// "An illegal item, input that runs out or bad padding."
    Module,
    /// "A move or store outside the page."
    Page,
}

impl Refusal {
    /// The number in the table of refusals.
    pub fn number(self) -> u8 {
        match self {
            Refusal::Tables => 1,
            Refusal::Call => 2,
            Refusal::Channel => 3,
            Refusal::Exists => 4,
            Refusal::Name => 5,
            Refusal::Device => 6,
            Refusal::Driver(_) => 7,
            Refusal::Full => 8,
            Refusal::Room => 9,
            Refusal::Segment => 10,
            Refusal::Owner => 11,
            Refusal::Boundary => 12,
            Refusal::Range => 13,
            Refusal::Guard => 14,
            Refusal::Flags => 15,
            Refusal::Start => 16,
            Refusal::Module => 19,
            Refusal::Page => 20,
        }
    }
}

impl From<Refusal> for Reply {
    /// "A refusal gives a = b = 0 but for DRIVER."
    fn from(refusal: Refusal) -> Reply {
        let a = match refusal {
            Refusal::Driver(status) => status,
            _ => 0,
        };
        Reply::new(refusal.number(), a, 0)
    }
}
