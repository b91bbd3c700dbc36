//! A difference between verdicts as a person reads it: the log in hex, a record
//! a line, and who said what.

use super::logs::{Made, Piece};
use super::pairs::REPLY;
use exoslog::{hex, words, Record};
use std::fmt::Write;

/// The verdicts on a log.
#[derive(Debug, PartialEq, Eq)]
pub struct Verdicts {
    /// By what was put in.
    pub expected: String,
    /// The proved program's.
    pub proved: String,
    /// The independent auditor's.
    pub independent: String,
}

impl Verdicts {
    /// Who differs from what was put in.
    pub fn differing(&self) -> Vec<&'static str> {
        let sides = [
            (&self.proved, "the proved program"),
            (&self.independent, "the Rust auditor"),
        ];
        let differing = sides.into_iter().filter(|side| *side.0 != self.expected);
        differing.map(|side| side.1).collect()
    }
}

/// The log, and what was said of it. What follows a `#` is no part of the log.
pub fn report(made: &Made, verdicts: &Verdicts) -> String {
    let mut text = String::new();
    for (number, piece) in made.pieces.iter().enumerate() {
        let _ = writeln!(text, "{} # {number}: {}", hex(&piece.bytes), said(piece));
    }
    let _ = writeln!(text, "# expected: {}", verdicts.expected);
    let _ = writeln!(text, "# the proved program: {}", verdicts.proved);
    let _ = writeln!(text, "# the Rust auditor: {}", verdicts.independent);
    let _ = writeln!(text, "# differs: {}", verdicts.differing().join(", "));
    text
}

/// A record in words, or what was put in its place.
fn said(piece: &Piece) -> String {
    match (&piece.put, &piece.bytes[..]) {
        (Some(put), _) => format!("put in: {put}"),
        (None, &[_, _, k0, k1, ref body @ ..]) => match (u16::from_le_bytes([k0, k1]), body) {
            (REPLY, &[number, a, b0, b1, ..]) => {
                format!("reply {number} {a} {}", u16::from_le_bytes([b0, b1]))
            }
            (kind, body) => words(Record::Whole { kind, body }),
        },
        _ => "no record".to_string(),
    }
}

#[cfg(test)]
mod tests {
    use super::*;
    use crate::audits::events::few;
    use crate::audits::faults::faults;
    use crate::audits::logs::{Log, Put};

    #[test]
    fn a_difference_in_words() {
        let fault = faults().find(|fault| fault.what == "the last").unwrap();
        let log = Log::right(few().to_vec()).with(1, Put::Fault(fault));
        let made = log.made().unwrap();
        let [expected, proved, independent] = ["3 bytes", "3 bytes", "ok"].map(str::to_string);
        let verdicts = Verdicts {
            expected,
            proved,
            independent,
        };
        assert_eq!(
            report(&made, &verdicts),
            "06000001\
             0001feff # 0: start 256 254 255\n\
             0600000200020001 # 1: reply 0 2 256\n\
             02001400 # 2: status\n\
             0b00000200000500\
             0000010001 # 3: put in: bytes, the last\n\
             02001600 # 4: boundary\n\
             0600000200ff0001 # 5: reply 0 255 256\n\
             # expected: 3 bytes\n\
             # the proved program: 3 bytes\n\
             # the Rust auditor: ok\n\
             # differs: the Rust auditor\n"
        );
    }
}
