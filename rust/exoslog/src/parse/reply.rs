//! A reply in words.

use super::reader::Reader;
use crate::mistakes::Mistake;
use crate::reply::ReplyRecord;
use crate::words::counted;

impl Reader<'_> {
    /// Reads a reply's numbers and the bytes that may stand behind them, to its
    /// body.
    pub(super) fn reply(&mut self) -> Result<Vec<u8>, Mistake> {
        let answer = self.byte("an answer")?;
        let a = self.byte("the value a")?;
        let b = self.number("the value b", u16::MAX)?;
        let mut body = ReplyRecord {
            answer,
            a,
            b,
            bytes: &[],
        }
        .body();
        let start = self.place();
        if self.is_at_end() {
            return Ok(body);
        }
        self.rest(&mut body, "bytes", Self::data)?;
        match ReplyRecord::read(&body) {
            Some(reply) if reply.ill_sized().is_some() => {
                let found = counted(reply.bytes.len(), "byte");
                Err(self.mistake_since(start, bytes_due(&reply), found))
            }
            _ => Ok(body),
        }
    }
}

/// The bytes that a reply may have, as a message says it.
fn bytes_due(reply: &ReplyRecord) -> String {
    match (reply.answer, reply.b) {
        (0, 0) => "no bytes, as b says".to_string(),
        (0, b) => format!("{}, as b says, or none", counted(b.into(), "byte")),
        _ => "no bytes, which only the answer 0 has".to_string(),
    }
}

#[cfg(test)]
mod tests {
    use crate::encode;

    fn mistake(line: &str) -> String {
        let mistakes = encode(line.as_bytes()).unwrap_err();
        assert_eq!(mistakes.len(), 1, "{mistakes:?}");
        mistakes[0].to_string()
    }

    #[test]
    fn replies_to_records() {
        for (words, record) in [
            ("reply 9 0 0", &[6, 0, 0, 2, 9, 0, 0, 0][..]),
            (
                "  reply 17 0xff 0x2b42 # 17",
                &[6, 0, 0, 2, 17, 255, 0x42, 0x2B],
            ),
            ("reply 0 0 2 aa 55", &[8, 0, 0, 2, 0, 0, 2, 0, 0xAA, 0x55]),
            ("reply 0 0 2 \"AB\"", &[8, 0, 0, 2, 0, 0, 2, 0, 65, 66]),
            ("reply 0 0 0 \"\"", &[6, 0, 0, 2, 0, 0, 0, 0]),
        ] {
            assert_eq!(encode(words.as_bytes()).as_deref(), Ok(record), "{words}");
        }
        let longest = format!("reply 0 0 4090 {}", "5a".repeat(4_090));
        assert_eq!(encode(longest.as_bytes()).unwrap().len(), 4_098);
    }

    #[test]
    fn mistakes_in_numbers() {
        for (line, said) in [
            (
                "reply",
                "1:6: expected an answer 0 to 255, found the end of the line",
            ),
            (
                "reply ROOM 0 0",
                "1:7: expected an answer 0 to 255, found \"ROOM\"",
            ),
            (
                "reply 0 256 0",
                "1:9: expected the value a 0 to 255, found \"256\"",
            ),
            (
                "reply 0 0 65536",
                "1:11: expected the value b 0 to 65535, found \"65536\"",
            ),
            (
                "reply 0 0",
                "1:10: expected the value b 0 to 65535, found the end of the line",
            ),
        ] {
            assert_eq!(mistake(line), said);
        }
    }

    #[test]
    fn mistakes_in_bytes() {
        for (line, said) in [
            (
                "reply 0 0 2 aa",
                "1:13: expected 2 bytes, as b says, or none, found 1 byte",
            ),
            (
                "reply 0 0 1 aa55",
                "1:13: expected 1 byte, as b says, or none, found 2 bytes",
            ),
            (
                "reply 0 0 0 aa",
                "1:13: expected no bytes, as b says, found 1 byte",
            ),
            (
                "reply 13 0 1 aa",
                "1:14: expected no bytes, which only the answer 0 has, found 1 byte",
            ),
            (
                "reply 0 0 2 done",
                "1:14: expected the second hex digit of a byte, found \"o\"",
            ),
            (
                "reply 0 0 2 x",
                "1:13: expected data as pairs of hex digits or in double quotes, found \"x\"",
            ),
        ] {
            assert_eq!(mistake(line), said);
        }
        let line = format!("reply 0 0 4091 {}", "5a".repeat(4_091));
        assert_eq!(
            mistake(&line),
            "1:16: expected at most 4090 bytes, found 4091"
        );
    }
}
