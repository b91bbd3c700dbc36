//! Two listings compared: the first record whose values differ.

#[cfg(test)]
mod tests;

use crate::grammar::kind_words;
use crate::listing::{Line, Listing};
use crate::log::Log;
use crate::records::Record;
use crate::words::{cut, words};

/// What differs, in words: notes on what is not in 01's form, and the first
/// record whose values differ, with the log's record if a log is given. Nothing
/// where the listings are the same byte by byte.
pub fn diff(one: Listing, two: Listing, log: Option<&[u8]>) -> Option<String> {
    if one.text == two.text {
        return None;
    }
    let mut notes = Notes::default();
    for place in places(one, two, log.map(Log::of)) {
        notes.add_faults(&place, &place.left);
        notes.add_faults(&place, &place.right);
        notes.add_log(&place);
        if place.differs() {
            return Some(notes.lines.concat() + &place.difference());
        }
    }
    Some(notes.lines.concat() + "no value differs\n")
}

/// The columns of a record that are shown.
const WIDTH: usize = 72;

/// What stands at a record's number in both listings and in the log.
struct Place<'a> {
    number: usize,
    log: Option<Log<'a>>,
    event: Option<Record<'a>>,
    left: Line<'a>,
    right: Line<'a>,
}

/// The places of all records, up to the longer listing's end.
fn places<'a>(
    one: Listing<'a>,
    two: Listing<'a>,
    log: Option<Log<'a>>,
) -> impl Iterator<Item = Place<'a>> {
    let mut lefts = one.lines();
    let mut rights = two.lines();
    let mut asked = log.map(Log::asked).into_iter().flatten();
    (1..).map_while(move |number| {
        let (left, right) = (lefts.next()?, rights.next()?);
        (left.is_there() || right.is_there()).then(|| Place {
            number,
            log,
            event: asked.next().map(|asked| asked.event),
            left,
            right,
        })
    })
}

impl Place<'_> {
    fn differs(&self) -> bool {
        !self.left.has_the_values_of(&self.right)
    }

    /// The record by its numbers.
    fn name(&self) -> String {
        match self.log {
            Some(log) => log.named(self.number),
            None => format!("record {}", self.number),
        }
    }

    fn difference(&self) -> String {
        let mut lines = vec![format!("{} differs\n", self.name())];
        if let Some(log) = self.log {
            let record = match log.record(self.number) {
                Ok(asked) => cut(&words(asked.event), WIDTH),
                Err(none) => format!("none, {}", none.why("the log")),
            };
            lines.push(format!("  record: {record}\n"));
        }
        lines.push(format!("  {}: {}\n", self.left.file, self.left));
        lines.push(format!("  {}: {}\n", self.right.file, self.right));
        let reasons = self.left.reasons(&self.right);
        lines.extend(reasons.iter().map(|reason| format!("  {reason}\n")));
        lines.concat()
    }
}

/// What is said before the difference, each thing once.
#[derive(Default)]
struct Notes<'a> {
    lines: Vec<String>,
    /// The file and the rule of each note.
    told: Vec<(&'a str, &'static str)>,
}

impl<'a> Notes<'a> {
    /// What in a line is not in 01's form.
    fn add_faults(&mut self, place: &Place, line: &Line<'a>) {
        for fault in line.faults() {
            let note = format!(
                "{}: {} {}; 01 asks for {}\n",
                line.file,
                place.name(),
                fault.found,
                fault.rule
            );
            self.add(line.file, fault.rule, note);
        }
    }

    /// Whether the log is of other calls.
    fn add_log(&mut self, place: &Place) {
        let (kind, words) = match place.event {
            None => return,
            Some(Record::Whole { kind, .. }) => (kind.to_string(), kind_words(&kind.to_string())),
            Some(Record::Bad(_)) => ("bad".to_string(), "bad".to_string()),
        };
        if !place.left.is_of(&kind) && !place.right.is_of(&kind) {
            let name = place.name();
            let note =
                format!("log: {name} is {words}, and neither listing has that: is it their log?\n");
            self.add("log", "their log", note);
        }
    }

    fn add(&mut self, file: &'a str, rule: &'static str, note: String) {
        if !self.told.contains(&(file, rule)) {
            self.told.push((file, rule));
            self.lines.push(note);
        }
    }
}
