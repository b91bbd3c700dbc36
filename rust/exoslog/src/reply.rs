//! The reply record, which follows its event in a maker's log.

use crate::answers::answer;
use crate::grammar::kind_words;
use crate::records::LONGEST;
use crate::words::{counted, data};
use exos_kernel::hex;

/// "A reply record of kind 512."
pub const REPLY: u16 = 512;

/// "Answer number u8, a u8, b u16."
const FIXED: usize = 4;

/// The most bytes that a reply has room for: those that an audit lends, "output
/// 4,090 bytes".
pub const MOST_BYTES: usize = LONGEST - 2 - FIXED;

/// The kind of a read, to which bytes are given.
const READ: u16 = 6;

/// "A fifth field, the bytes in lower-case hex, where 6, 20 or 258 is done."
pub(crate) fn gives_bytes(kind: u16) -> bool {
    [READ, 20, 258].contains(&kind)
}

/// What a reply record says.
#[derive(Clone, Copy, Debug, PartialEq, Eq)]
pub struct ReplyRecord<'a> {
    /// The answer's number.
    pub answer: u8,
    /// The first value.
    pub a: u8,
    /// The second value.
    pub b: u16,
    /// "The b output bytes where the listing program would print any."
    pub bytes: &'a [u8],
}

impl<'a> ReplyRecord<'a> {
    /// The reply that a body is, unless it is short of its fixed fields.
    pub fn read(body: &'a [u8]) -> Option<ReplyRecord<'a>> {
        let (&[answer, a, low, high], bytes) = body.split_first_chunk::<FIXED>()?;
        let b = u16::from_le_bytes([low, high]);
        Some(ReplyRecord {
            answer,
            a,
            b,
            bytes,
        })
    }

    /// The body of its record.
    pub fn body(&self) -> Vec<u8> {
        let [low, high] = self.b.to_le_bytes();
        [&[self.answer, self.a, low, high], self.bytes].concat()
    }

    /// Why the record is ill-sized as the reply to an event of a kind: it has 6
    /// bytes, or 6 + b where it says that such a call is done with b > 0.
    pub fn ill_sized_for(&self, kind: u16) -> Option<String> {
        let is_given = self.answer == 0 && gives_bytes(kind);
        let due = if is_given { self.b.into() } else { 0 };
        if self.bytes.len() == due && due <= MOST_BYTES {
            return None;
        }
        let found = match self.bytes.len() {
            0 => "no bytes".to_string(),
            found => counted(found, "byte"),
        };
        let b = self.b;
        let rule = if self.answer != 0 {
            "only the answer 0 has any".to_string()
        } else if !is_given {
            format!("a reply to {} has none", kind_words(&kind.to_string()))
        } else if due > MOST_BYTES {
            format!("b is {b}: an audit lends {MOST_BYTES}, and answers 13 RANGE to more")
        } else {
            format!("b is {b}")
        };
        Some(format!("{found}, and {rule}"))
    }

    /// Why the record is ill-sized whatever the event is. Without bytes it has a
    /// size that a reply may have.
    pub fn ill_sized(&self) -> Option<String> {
        let has_bytes = !self.bytes.is_empty();
        has_bytes.then(|| self.ill_sized_for(READ)).flatten()
    }

    /// What it says, in words.
    pub fn said(&self) -> String {
        let ReplyRecord {
            answer: n, a, b, ..
        } = self;
        let said = format!("{}, a {a}, b {b}", answer(&n.to_string()));
        match self.bytes {
            [] => said,
            bytes => format!("{said}, bytes {}", hex(bytes)),
        }
    }
}

/// A record of kind 512 in words: a reply with its answer's name or, where it is
/// none, a record of any kind, and a comment that says why.
pub(crate) fn reply_words(body: &[u8]) -> String {
    let none = |why: &str| format!("kind {REPLY} {} # reply: {why}", data(body));
    let Some(reply) = ReplyRecord::read(body) else {
        return none("body short of its fixed fields");
    };
    if let Some(why) = reply.ill_sized() {
        return none(&why);
    }
    let ReplyRecord {
        answer: number,
        a,
        b,
        bytes,
    } = reply;
    let blank = if bytes.is_empty() { "" } else { " " };
    let name = answer(&number.to_string());
    format!("reply {number} {a} {b}{blank}{} # {name}", hex(bytes))
}

#[cfg(test)]
mod tests {
    use super::*;

    fn reply(answer: u8, b: u16, bytes: &[u8]) -> ReplyRecord<'_> {
        ReplyRecord {
            answer,
            a: 7,
            b,
            bytes,
        }
    }

    #[test]
    fn a_body_read_is_the_body_made() {
        let body = [17, 255, 0x42, 0x2B];
        let read = ReplyRecord::read(&body).unwrap();
        assert_eq!((read.answer, read.a, read.b), (17, 255, 11_074));
        assert_eq!(read.body(), body);
        let body = [0, 0, 2, 0, 0xAA, 0x55];
        assert_eq!(ReplyRecord::read(&body).unwrap().body(), body);
        assert_eq!(ReplyRecord::read(&body[..3]), None);
    }

    #[test]
    fn the_sizes_of_a_reply() {
        let all = [1; 5_000];
        for kind in [6, 20, 258] {
            assert_eq!(reply(0, 2, &all[..2]).ill_sized_for(kind), None);
            assert_eq!(reply(0, 4_090, &all[..4_090]).ill_sized_for(kind), None);
            assert_eq!(reply(0, 0, &[]).ill_sized_for(kind), None);
            assert_eq!(reply(13, 2, &[]).ill_sized_for(kind), None);
        }
        for kind in [0, 8, 30, 77, 256] {
            assert_eq!(reply(0, 65_535, &[]).ill_sized_for(kind), None);
            assert_eq!(reply(17, 65_535, &[]).ill_sized_for(kind), None);
        }
    }

    #[test]
    fn why_a_reply_is_ill_sized() {
        let all = [1; 5_000];
        for (reply, kind, why) in [
            (reply(0, 2, &[]), 6, "no bytes, and b is 2"),
            (reply(0, 2, &all[..1]), 20, "1 byte, and b is 2"),
            (reply(0, 2, &all[..3]), 258, "3 bytes, and b is 2"),
            (reply(0, 0, &all[..3]), 6, "3 bytes, and b is 0"),
            (
                reply(13, 2, &all[..2]),
                6,
                "2 bytes, and only the answer 0 has any",
            ),
            (
                reply(0, 2, &all[..2]),
                8,
                "2 bytes, and a reply to 8 write has none",
            ),
            (
                reply(0, 2, &all[..2]),
                77,
                "2 bytes, and a reply to 77 unknown has none",
            ),
            (
                reply(0, 4_091, &all[..4_091]),
                6,
                "4091 bytes, and b is 4091: an audit lends 4090, and answers 13 RANGE to more",
            ),
        ] {
            assert_eq!(reply.ill_sized_for(kind).as_deref(), Some(why));
        }
    }

    #[test]
    fn replies_in_words() {
        assert_eq!(reply_words(&[9, 0, 0, 0]), "reply 9 0 0 # 9 ROOM");
        assert_eq!(
            reply_words(&[17, 255, 0x42, 0x2B]),
            "reply 17 255 11074 # 17 SHARED"
        );
        assert_eq!(
            reply_words(&[0, 0, 2, 0, 0xAA, 0x55]),
            "reply 0 0 2 aa55 # 0 done"
        );
        assert_eq!(
            reply_words(&[18, 1, 2, 3]),
            "reply 18 1 770 # 18 (no such answer)"
        );
    }

    #[test]
    fn what_is_no_reply_says_why() {
        for (body, words) in [
            (&[][..], "\"\" # reply: body short of its fixed fields"),
            (&[0, 0, 0], "000000 # reply: body short of its fixed fields"),
            (&[0, 0, 2, 0, 1], "0000020001 # reply: 1 byte, and b is 2"),
            (
                &[9, 0, 1, 0, 1],
                "0900010001 # reply: 1 byte, and only the answer 0 has any",
            ),
        ] {
            assert_eq!(reply_words(body), format!("kind 512 {words}"));
        }
    }

    #[test]
    fn what_a_reply_says() {
        assert_eq!(reply(9, 0, &[]).said(), "9 ROOM, a 7, b 0");
        assert_eq!(
            reply(0, 2, &[0xAA, 0x55]).said(),
            "0 done, a 7, b 2, bytes aa55"
        );
    }
}
