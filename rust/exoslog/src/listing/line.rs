//! A line of a listing: what it says, and what in it is not in 01's form.

use super::answer::Answer;
use crate::without_mark;
use crate::words::cut;
use std::fmt;

/// The columns of a line that are shown.
const WIDTH: usize = 72;

/// A line of a listing, or that the listing ends before it.
pub(crate) struct Line<'a> {
    /// The listing's name.
    pub(crate) file: &'a str,
    bytes: Option<&'a [u8]>,
}

/// What in a line is not in 01's form, though its values can be read.
pub(crate) struct Fault {
    pub(crate) found: String,
    pub(crate) rule: &'static str,
}

/// Why a line has no answer.
pub(crate) enum NoAnswer {
    /// "A bad length or cut record prints `bad`."
    Bad,
    /// It is no line of a listing, and why.
    NoLine(String),
}

impl<'a> Line<'a> {
    pub(crate) fn new(file: &'a str, bytes: Option<&'a [u8]>) -> Self {
        Line { file, bytes }
    }

    pub(crate) fn is_there(&self) -> bool {
        self.bytes.is_some()
    }

    /// The line without a byte order mark and without the blanks and the
    /// newline at its end.
    fn text(&self) -> Option<&'a [u8]> {
        self.bytes.map(|bytes| without_mark(bytes).trim_ascii_end())
    }

    /// The answer, or why there is none; nothing where the listing ends before.
    pub(crate) fn answer(&self) -> Option<Result<Answer<'a>, NoAnswer>> {
        match self.text()? {
            b"bad" => Some(Err(NoAnswer::Bad)),
            text => Some(Answer::read(text).map_err(NoAnswer::NoLine)),
        }
    }

    pub(crate) fn has_the_values_of(&self, other: &Line) -> bool {
        if self.text() == other.text() {
            return true;
        }
        match (self.answer(), other.answer()) {
            (Some(Ok(left)), Some(Ok(right))) => left.has_the_values_of(&right),
            _ => false,
        }
    }

    /// Whether it is a line of a kind, or of a bad record where that is `bad`.
    pub(crate) fn is_of(&self, kind: &str) -> bool {
        match self.answer() {
            Some(Ok(answer)) => answer.kind() == kind,
            _ => self.text() == Some(kind.as_bytes()),
        }
    }

    /// What differs, field by field, or why the fields cannot be compared.
    pub(crate) fn reasons(&self, other: &Line) -> Vec<String> {
        match (self.answer(), other.answer()) {
            (Some(Ok(left)), Some(Ok(right))) => left.differences(&right),
            (left, right) => [(self.file, left), (other.file, right)]
                .into_iter()
                .filter_map(|(file, answer)| Some(answer?.err()?.reason(file)))
                .collect(),
        }
    }

    pub(crate) fn faults(&self) -> Vec<Fault> {
        let Some(bytes) = self.bytes else {
            return vec![];
        };
        let mut faults = Vec::new();
        if without_mark(bytes).len() < bytes.len() {
            faults.push(Fault {
                found: "begins with a byte order mark".to_string(),
                rule: "none",
            });
        }
        if let Some(Ok(answer)) = self.answer() {
            faults.extend(answer.faults());
        }
        faults.extend(end_fault(&bytes[bytes.trim_ascii_end().len()..]));
        faults
    }
}

impl NoAnswer {
    /// What is said of the file that has it in the place of an answer.
    fn reason(&self, file: &str) -> String {
        match self {
            NoAnswer::Bad => format!("{file} finds a bad length or a cut record here"),
            NoAnswer::NoLine(why) => format!("{file} has no line of a listing here: {why}"),
        }
    }
}

/// What is wrong with a line's end.
fn end_fault(end: &[u8]) -> Option<Fault> {
    match end {
        b"\n" => None,
        b"" => Some(Fault {
            found: "has no newline".to_string(),
            rule: "one",
        }),
        _ => Some(Fault {
            found: format!("ends with \"{}\"", end.escape_ascii()),
            rule: "\"\\n\" alone",
        }),
    }
}

/// A line as it is shown.
impl fmt::Display for Line<'_> {
    fn fmt(&self, f: &mut fmt::Formatter) -> fmt::Result {
        match self.text() {
            Some(text) => f.write_str(&cut(&text.escape_ascii().to_string(), WIDTH)),
            None => f.write_str("ends before this record"),
        }
    }
}
