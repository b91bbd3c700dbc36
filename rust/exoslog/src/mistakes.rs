//! Mistakes in words, and how they are shown.

use crate::without_mark;
use std::fmt;

/// A place in a text.
#[derive(Clone, Copy, Debug, PartialEq, Eq)]
pub struct Place {
    /// The line, from 1.
    pub line: usize,
    /// The column, from 1.
    pub column: usize,
    /// How many columns are in question.
    pub width: usize,
}

/// A mistake: where it is, what was expected and what was found.
#[derive(Clone, Debug, PartialEq, Eq)]
pub struct Mistake {
    /// Where it is.
    pub place: Place,
    /// What was expected.
    pub expected: String,
    /// What was found.
    pub found: String,
}

impl fmt::Display for Mistake {
    fn fmt(&self, f: &mut fmt::Formatter) -> fmt::Result {
        let Place { line, column, .. } = self.place;
        write!(f, "{line}:{column}: {}", self.words())
    }
}

/// The columns of a line that are shown.
const WINDOW: usize = 72;

impl Mistake {
    /// The message with the file's name, the line and a mark under the place.
    pub fn show(&self, file: &str, text: &[u8]) -> String {
        self.place.show(file, text, &self.words())
    }

    fn words(&self) -> String {
        format!("expected {}, found {}", self.expected, self.found)
    }
}

impl Place {
    /// What is said of a place, with the file's name, the line and a mark under
    /// the place.
    pub fn show(&self, file: &str, text: &[u8], said: &str) -> String {
        let mut lines = without_mark(text).split(|&byte| byte == b'\n');
        let shown = plain(lines.nth(self.line - 1).unwrap_or_default());
        let (shown, before) = window(&shown, self.column - 1);
        let width = self.width.min(shown.len().saturating_sub(before)).max(1);
        let marks = "^".repeat(width);
        let shown: String = shown.iter().collect();
        let Place { line, column, .. } = self;
        format!(
            "{file}:{line}:{column}: {said}\n    {shown}\n    {:before$}{marks}\n",
            ""
        )
    }
}

/// A line as characters that each take a column.
fn plain(line: &[u8]) -> Vec<char> {
    let text = String::from_utf8_lossy(line);
    let text = text.trim_end_matches('\r');
    let column = |c: char| match c {
        '\t' => ' ',
        c if c.is_control() => '?',
        c => c,
    };
    text.chars().map(column).collect()
}

/// The part of a long line around a place, and the place in it.
fn window(line: &[char], at: usize) -> (&[char], usize) {
    let start = if line.len() <= WINDOW {
        0
    } else {
        at.saturating_sub(WINDOW / 2).min(line.len() - WINDOW)
    };
    let end = line.len().min(start + WINDOW);
    (&line[start..end], at - start)
}

#[cfg(test)]
mod tests {
    use super::*;

    fn mistake(line: usize, column: usize, width: usize) -> Mistake {
        Mistake {
            place: Place {
                line,
                column,
                width,
            },
            expected: "x".to_string(),
            found: "y".to_string(),
        }
    }

    #[test]
    fn the_line_is_shown_with_a_mark_under_the_place() {
        let text = b"close 5\n\topen abc\r\n";
        assert_eq!(
            mistake(2, 7, 3).show("f", text),
            "f:2:7: expected x, found y\n     open abc\n          ^^^\n"
        );
        assert_eq!(
            mistake(2, 10, 1).show("f", text),
            "f:2:10: expected x, found y\n     open abc\n             ^\n"
        );
    }

    #[test]
    fn a_long_line_is_shown_around_the_place() {
        let text = format!("write 5 0 {}g{}", "a".repeat(200), "b".repeat(200));
        let shown = mistake(1, 211, 1).show("f", text.as_bytes());
        let expected = format!(
            "f:1:211: expected x, found y\n    {}g{}\n    {}^\n",
            "a".repeat(36),
            "b".repeat(35),
            " ".repeat(36)
        );
        assert_eq!(shown, expected);
        let shown = mistake(1, 412, 1).show("f", text.as_bytes());
        assert!(shown.ends_with(&format!("{}^\n", " ".repeat(4 + 72))));
    }

    #[test]
    fn control_characters_do_not_reach_the_terminal() {
        let shown = mistake(1, 1, 1).show("f", b"\x1b[2J\x07\xff");
        assert_eq!(
            shown,
            "f:1:1: expected x, found y\n    ?[2J?\u{fffd}\n    ^\n"
        );
    }
}
