//! The audit of a maker's log: "event records, each followed by a reply record
//! of kind 512".

use crate::answers::Reply;
use crate::calls::START;
use crate::events::{decode, Record, Records};
use crate::listing::bytes_printed;
use crate::machine::Machine;
use std::fmt::{self, Display, Formatter};
use std::io::{self, Read};

/// "RAM is lent as in the listing program, output 4,090 bytes."
const OUTPUT: usize = 4_090;
/// "A reply record of kind 512."
const REPLY: u16 = 512;

/// What an audit finds.
#[derive(Clone, Copy, Debug, PartialEq, Eq)]
pub enum Verdict {
    /// The log is accepted.
    Ok,
    /// "It names the first record at fault."
    Fault {
        /// "Events and replies counted together from 0."
        record: u64,
        /// What is wrong with it.
        word: Word,
    },
}

/// What is wrong with a record.
#[derive(Clone, Copy, Debug, PartialEq, Eq)]
pub enum Word {
    /// "Without a whole accepted start, an empty log included."
    Start,
    /// "A cut, ill-sized, missing or misplaced record."
    Cut,
    /// Another answer number than the definition's.
    Answer,
    /// Another a.
    A,
    /// Another b.
    B,
    /// Other bytes.
    Bytes,
}

impl Display for Verdict {
    /// "A program prints `ok`, or number and word."
    fn fmt(&self, to: &mut Formatter<'_>) -> fmt::Result {
        match self {
            Verdict::Ok => to.write_str("ok"),
            Verdict::Fault { record, word } => write!(to, "{record} {word}"),
        }
    }
}

impl Display for Word {
    fn fmt(&self, to: &mut Formatter<'_>) -> fmt::Result {
        to.write_str(match self {
            Word::Start => "start",
            Word::Cut => "cut",
            Word::Answer => "answer",
            Word::A => "a",
            Word::B => "b",
            Word::Bytes => "bytes",
        })
    }
}

/// Audits a log: "it accepts exactly the logs that begin with an accepted start
/// and whose every reply is the definition's". Nothing behind the first record
/// at fault is looked at.
pub fn audit(log: impl Read) -> io::Result<Verdict> {
    let mut records = Records::new(log);
    let mut machine = Machine::lending(OUTPUT);
    let mut record = 0;
    let fault = |record, word| Ok(Verdict::Fault { record, word });
    let Some(mut due) = Due::of_start(&mut machine, records.next()?) else {
        return fault(record, Word::Start);
    };
    loop {
        record += 1;
        if let Some(word) = due.fault(machine.output(), records.next()?) {
            return fault(record, word);
        }
        record += 1;
        due = match records.next()? {
            Record::Whole { kind, body } if kind != REPLY => Due::of(&mut machine, kind, body),
            Record::End => return Ok(Verdict::Ok),
            _ => return fault(record, Word::Cut),
        };
    }
}

/// The kind of an event, and the definition's reply to it.
struct Due {
    kind: u16,
    reply: Reply,
}

impl Due {
    fn of(machine: &mut Machine, kind: u16, body: &[u8]) -> Due {
        let reply = machine.answer(decode(kind, body));
        Due { kind, reply }
    }

    /// Of the first record, if that is "a whole accepted start".
    fn of_start(machine: &mut Machine, first: Record) -> Option<Due> {
        let Record::Whole { kind: START, body } = first else {
            return None;
        };
        let due = Due::of(machine, START, body);
        (due.reply.number == 0).then_some(due)
    }

    /// What is wrong with the record in the reply's place: `cut`, or "the first
    /// of `answer`, `a`, `b`, `bytes` that differs".
    fn fault(&self, output: &[u8], record: Record) -> Option<Word> {
        let Some((given, bytes)) = given(self.kind, record) else {
            return Some(Word::Cut);
        };
        let due = self.reply;
        let bytes_due = &output[..bytes_printed(self.kind, due)];
        let words = [
            (given.number == due.number, Word::Answer),
            (given.a == due.a, Word::A),
            (given.b == due.b, Word::B),
            (bytes == bytes_due, Word::Bytes),
        ];
        let differs = words.into_iter().find(|word| !word.0);
        differs.map(|word| word.1)
    }
}

/// What a record replies to an event of a kind: "answer number u8, a u8, b u16
/// and the b output bytes where the listing program would print any". None where
/// it is no reply or is ill-sized by its own fields, whatever the definition's
/// are.
fn given(kind: u16, record: Record<'_>) -> Option<(Reply, &[u8])> {
    let Record::Whole {
        kind: REPLY,
        body: &[number, a, b0, b1, ref bytes @ ..],
    } = record
    else {
        return None;
    };
    let b = u16::from_le_bytes([b0, b1]);
    let reply = Reply::new(number, a, b);
    (bytes.len() == bytes_printed(kind, reply)).then_some((reply, bytes))
}
