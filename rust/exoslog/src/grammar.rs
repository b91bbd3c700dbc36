//! The table "Calls and their bodies" with what orders put into it, from which
//! words are read and written.

/// A field of a body. A number has the words that a message calls it by.
#[derive(Clone, Copy, Debug, PartialEq, Eq)]
pub enum Field {
    /// A u8.
    Byte(&'static str),
    /// A u16, "little-endian".
    Word(&'static str),
    /// The flags of a reset, a u8.
    Flags,
    /// "0 user or 1 device, u8."
    Caller,
    /// The rest of the body: the segment numbers of a start.
    List,
    /// The rest of the body: a name.
    Name,
    /// The rest of the body: data.
    Data,
    /// The rest of the body: the stream of a module.
    Stream,
}

impl Field {
    /// How many bytes the field has; none where it is the rest of the body.
    pub fn size(self) -> Option<usize> {
        match self {
            Field::Byte(_) | Field::Flags | Field::Caller => Some(1),
            Field::Word(_) => Some(2),
            Field::List | Field::Name | Field::Data | Field::Stream => None,
        }
    }
}

/// A row of the table: a kind, its words, its body, and what a and b are when
/// it is done.
#[derive(Clone, Copy, Debug, PartialEq, Eq)]
pub struct Form {
    /// The kind.
    pub kind: u16,
    /// The words that begin a line.
    pub words: &'static str,
    /// The body.
    pub fields: &'static [Field],
    /// What a is.
    pub a: Option<&'static str>,
    /// What b is.
    pub b: Option<&'static str>,
}

const CHANNEL: Field = Field::Byte("a channel number");
const SEGMENT: Field = Field::Byte("a segment number");
const OFFSET: Field = Field::Word("an offset");
const LENGTH: Field = Field::Word("a length");

/// The rows of the table in its order, and those of orders among them by kind.
pub const FORMS: [Form; 16] = [
    Form {
        kind: 256,
        words: "start",
        fields: &[Field::Word("the room R"), Field::List],
        a: Some("segments"),
        b: Some("R"),
    },
    Form {
        kind: 0,
        words: "reset",
        fields: &[Field::Flags],
        a: None,
        b: None,
    },
    Form {
        kind: 1,
        words: "open",
        fields: &[
            CHANNEL,
            Field::Byte("a driver status"),
            Field::Word("a buffer length n"),
            Field::Name,
        ],
        a: Some("device"),
        b: Some("unit"),
    },
    Form {
        kind: 3,
        words: "close",
        fields: &[CHANNEL],
        a: None,
        b: None,
    },
    Form {
        kind: 6,
        words: "read",
        fields: &[CHANNEL, OFFSET, LENGTH],
        a: None,
        b: Some("bytes given"),
    },
    Form {
        kind: 8,
        words: "write",
        fields: &[CHANNEL, OFFSET, Field::Data],
        a: None,
        b: Some("length"),
    },
    Form {
        kind: 19,
        words: "default",
        fields: &[Field::Byte("a unit"), Field::Name],
        a: None,
        b: None,
    },
    Form {
        kind: 20,
        words: "status",
        fields: &[],
        a: None,
        b: Some("length"),
    },
    Form {
        kind: 21,
        words: "link",
        fields: &[Field::Word("a number of bytes m"), Field::Name],
        a: Some("device"),
        b: Some("new R"),
    },
    Form {
        kind: 22,
        words: "boundary",
        fields: &[],
        a: Some("last chain segment"),
        b: Some("EXOS boundary"),
    },
    Form {
        kind: 23,
        words: "set user boundary",
        fields: &[Field::Word("a user boundary")],
        a: None,
        b: None,
    },
    Form {
        kind: 24,
        words: "allocate",
        fields: &[Field::Caller],
        a: Some("segment"),
        b: Some("bytes, or the user boundary where it is shared"),
    },
    Form {
        kind: 25,
        words: "free",
        fields: &[Field::Caller, SEGMENT],
        a: None,
        b: None,
    },
    Form {
        kind: 30,
        words: "load module",
        fields: &[
            SEGMENT,
            Field::Byte("a start page"),
            Field::Word("a start offset"),
            Field::Stream,
        ],
        a: None,
        b: Some("bytes used"),
    },
    Form {
        kind: 257,
        words: "user store",
        fields: &[SEGMENT, OFFSET, Field::Data],
        a: None,
        b: Some("length"),
    },
    Form {
        kind: 258,
        words: "user load",
        fields: &[SEGMENT, OFFSET, LENGTH],
        a: None,
        b: Some("length"),
    },
];

/// The row of a kind.
pub fn form_of(kind: u16) -> Option<&'static Form> {
    FORMS.iter().find(|form| form.kind == kind)
}

/// The row of a kind that stands in a listing, a decimal of any size.
pub(crate) fn form_by(kind: &str) -> Option<&'static Form> {
    kind.parse().ok().and_then(form_of)
}

/// A kind as its number and its words.
pub(crate) fn kind_words(kind: &str) -> String {
    let words = form_by(kind).map_or("unknown", |form| form.words);
    format!("{kind} {words}")
}

/// How a body does not fit its form.
#[derive(Clone, Copy, Debug, PartialEq, Eq)]
pub enum Misfit {
    /// "Body short of its fixed fields."
    Short,
    /// "Or longer without name, data or list."
    Long,
}

impl Form {
    /// The fields of a body, each with its bytes, which end to end are the
    /// body.
    pub fn parts<'a>(&self, body: &'a [u8]) -> Result<Vec<(Field, &'a [u8])>, Misfit> {
        let mut parts = Vec::new();
        let mut rest = body;
        for field in self.fields {
            let size = field.size().unwrap_or(rest.len());
            let (bytes, later) = rest.split_at_checked(size).ok_or(Misfit::Short)?;
            parts.push((*field, bytes));
            rest = later;
        }
        if rest.is_empty() {
            Ok(parts)
        } else {
            Err(Misfit::Long)
        }
    }
}

#[cfg(test)]
mod tests {
    use super::*;
    use exos_kernel::Call;

    #[test]
    fn the_bodies_are_those_the_kernel_reads() {
        for kind in 0..=300 {
            for length in 0..20 {
                let body = vec![0; length];
                let call = exos_kernel::decode(kind, &body);
                let fits = form_of(kind).is_some_and(|form| form.parts(&body).is_ok());
                assert_eq!(
                    fits,
                    !matches!(call, Call::Unknown { .. }),
                    "{kind} {length}"
                );
            }
        }
    }

    #[test]
    fn a_body_in_its_parts() {
        let open = form_of(1).unwrap();
        let body = b"\x05\x01\x02\x03NET";
        let parts = open.parts(body).unwrap();
        let bytes: Vec<_> = parts.iter().map(|part| part.1).collect();
        assert_eq!(bytes, [&b"\x05"[..], b"\x01", b"\x02\x03", b"NET"]);
        assert_eq!(parts[3].0, Field::Name);
        assert_eq!(open.parts(&body[..3]), Err(Misfit::Short));
        assert_eq!(form_of(3).unwrap().parts(body), Err(Misfit::Long));
    }

    #[test]
    fn only_the_last_field_is_the_rest_of_the_body() {
        for form in &FORMS {
            let rest = form.fields.split_last().map_or(&[][..], |(_, rest)| rest);
            assert!(
                rest.iter().all(|field| field.size().is_some()),
                "{}",
                form.words
            );
        }
    }
}
