//! The listing program.

use crate::answers::Reply;
use crate::events::{decode, Record, Records};
use crate::machine::Machine;
use std::io::{self, Read, Write};

/// "It reads event records from standard input [...] and prints a line a
/// record: kind, answer number, a, b, in decimal, one space between." "A bad
/// length or cut record prints `bad` and ends." The bytes moved are not printed.
pub fn listing(input: impl Read, mut output: impl Write) -> io::Result<()> {
    let mut machine = Machine::default();
    let mut records = Records::new(input);
    loop {
        match records.next()? {
            Record::Whole { kind, body } => {
                let reply = machine.answer(decode(kind, body));
                print(&mut output, kind, reply, machine.output())?;
            }
            Record::Bad => return writeln!(output, "bad"),
            Record::End => return Ok(()),
        }
    }
}

fn print(output: &mut impl Write, kind: u16, reply: Reply, lent: &[u8]) -> io::Result<()> {
    let Reply { number, a, b, .. } = reply;
    write!(output, "{kind} {number} {a} {b}")?;
    let bytes = &lent[..bytes_printed(kind, reply)];
    if !bytes.is_empty() {
        write!(output, " {}", hex(bytes))?;
    }
    writeln!(output)
}

/// How many bytes are printed: "a fifth field, the bytes in lower-case hex,
/// where 6, 20 or 258 is done with b > 0".
pub(crate) fn bytes_printed(kind: u16, reply: Reply) -> usize {
    match (kind, reply.number) {
        (6 | 20 | 258, 0) => usize::from(reply.b),
        _ => 0,
    }
}

/// Bytes in lower-case hex.
pub fn hex(bytes: &[u8]) -> String {
    const DIGITS: &[u8; 16] = b"0123456789abcdef";
    bytes
        .iter()
        .flat_map(|byte| [byte >> 4, byte & 15])
        .map(|digit| char::from(DIGITS[usize::from(digit)]))
        .collect()
}
