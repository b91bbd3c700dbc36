//! The fields of a line, and how those of two lines differ.

use super::line::Fault;
use crate::answers::answer;
use crate::grammar::{form_by, kind_words};
use exos_kernel::SHARED_GRANT;

/// "Kind, answer number, a, b, in decimal", and "a fifth field, the bytes in
/// lower-case hex". All are digits; zeros before a number and capitals in the
/// hex are read, and are faults.
pub(crate) struct Answer<'a> {
    numbers: [&'a str; 4],
    /// The fifth field, empty where there is none.
    pub(crate) bytes: &'a str,
}

const NAMES: [&str; 4] = ["kind", "answer", "a", "b"];

/// "0 is done."
const DONE: &str = "0";
/// The answer RANGE.
const RANGE: &str = "13";
/// The kind of a read.
const READ: &str = "6";

/// Order 2's sentence on the refusals of a read.
const RANGE_OF_READ: &str =
    "order 2: read gives RANGE only where the lent output is shorter than what it would give";

impl<'a> Answer<'a> {
    /// Reads the fields, or says why it is no line of a listing.
    pub(crate) fn read(text: &'a [u8]) -> Result<Answer<'a>, String> {
        let Ok(text) = std::str::from_utf8(text) else {
            return Err("it is no text".to_string());
        };
        let (numbers, bytes) = match text.split(' ').collect::<Vec<_>>()[..] {
            [kind, number, a, b] => ([kind, number, a, b], ""),
            [kind, number, a, b, bytes] => ([kind, number, a, b], bytes),
            _ => return Err("it has other than four or five fields".to_string()),
        };
        for (name, number) in NAMES.iter().zip(numbers) {
            if number.is_empty() || !number.bytes().all(|digit| digit.is_ascii_digit()) {
                let found = number.escape_debug();
                return Err(format!("{name} is \"{found}\""));
            }
        }
        if !bytes.bytes().all(|digit| digit.is_ascii_hexdigit()) {
            return Err("the bytes are no hex".to_string());
        }
        Ok(Answer { numbers, bytes })
    }

    /// Kind, answer, a and b, without zeros before them.
    pub(crate) fn values(&self) -> [&'a str; 4] {
        self.numbers
            .map(|number| match number.trim_start_matches('0') {
                "" => "0",
                value => value,
            })
    }

    pub(crate) fn kind(&self) -> &'a str {
        self.values()[0]
    }

    fn is_granted(&self) -> bool {
        let number = self.values()[1];
        number == DONE || number == SHARED_GRANT.to_string()
    }

    pub(crate) fn has_the_values_of(&self, other: &Answer) -> bool {
        self.values() == other.values() && self.bytes.eq_ignore_ascii_case(other.bytes)
    }

    /// What is not as 01 writes it.
    pub(crate) fn faults(&self) -> impl Iterator<Item = Fault> {
        let mut numbers = self.numbers.into_iter().zip(self.values());
        let zeros = numbers.find(|(number, value)| number != value);
        let capital = self.bytes.chars().find(char::is_ascii_uppercase);
        let decimal = zeros.map(|(number, _)| Fault {
            found: format!("has {number}"),
            rule: "plain decimals",
        });
        let hex = capital.map(|digit| Fault {
            found: format!("has {digit} in its bytes"),
            rule: "lower-case hex",
        });
        decimal.into_iter().chain(hex)
    }

    /// The numbers in words.
    fn words(&self) -> [String; 4] {
        let [kind, number, a, b] = self.values();
        [
            kind_words(kind),
            answer(number),
            a.to_string(),
            b.to_string(),
        ]
    }

    /// The fields whose values differ, in words.
    pub(crate) fn differences(&self, other: &Answer) -> Vec<String> {
        let [a, b] = self.meanings(other);
        let names = ["kind".to_string(), "answer".to_string(), a, b];
        let values = self.words().into_iter().zip(other.words());
        let differ = names.iter().zip(values).filter(|(_, (l, r))| l != r);
        differ
            .map(|(name, (left, right))| format!("{name}: {left}, {right}"))
            .chain(first_difference(self.bytes, other.bytes))
            .chain(self.range_of_read(other))
            .collect()
    }

    /// When a read is refused with RANGE, where one of two listings has it done
    /// and the other has RANGE.
    fn range_of_read(&self, other: &Answer) -> Option<String> {
        let mut answers = [self, other].map(|answer| (answer.kind(), answer.values()[1]));
        answers.sort_unstable();
        (answers == [(READ, DONE), (READ, RANGE)]).then(|| RANGE_OF_READ.to_string())
    }

    /// The names of a and b, with what they are where both lines are of one
    /// kind and one of the two is no refusal.
    fn meanings(&self, other: &Answer) -> [String; 2] {
        let known = self.kind() == other.kind() && (self.is_granted() || other.is_granted());
        let form = form_by(self.kind()).filter(|_| known);
        let named = |name: &str, what: Option<&str>| match what {
            Some(what) => format!("{name} ({what})"),
            None => name.to_string(),
        };
        [
            named("a", form.and_then(|form| form.a)),
            named("b", form.and_then(|form| form.b)),
        ]
    }
}

/// The first byte of two fifth fields that differs; the bytes are counted from
/// 0, as offsets are.
pub(crate) fn first_difference(left: &str, right: &str) -> Option<String> {
    let (left, right) = (left.to_ascii_lowercase(), right.to_ascii_lowercase());
    let byte = |bytes: &str, at: usize| match bytes.get(2 * at..) {
        None | Some("") => "none".to_string(),
        Some(rest) => rest.chars().take(2).collect(),
    };
    let bytes = left.len().max(right.len()).div_ceil(2);
    let at = (0..bytes).find(|&at| byte(&left, at) != byte(&right, at))?;
    Some(format!(
        "bytes: byte {at} is {}, {}",
        byte(&left, at),
        byte(&right, at)
    ))
}
