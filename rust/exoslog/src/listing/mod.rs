//! A listing by its lines.

mod answer;
mod line;

pub(crate) use answer::first_difference;
pub(crate) use line::{Line, NoAnswer};

use std::iter;

/// A listing with the name of its file.
#[derive(Clone, Copy, Debug)]
pub struct Listing<'a> {
    /// The file's name.
    pub name: &'a str,
    /// What it holds.
    pub text: &'a [u8],
}

impl<'a> Listing<'a> {
    /// Its lines, and then without end lines that are not there.
    pub(crate) fn lines(self) -> impl Iterator<Item = Line<'a>> {
        let lines = self.text.split_inclusive(|&byte| byte == b'\n');
        let and_none = lines.map(Some).chain(iter::repeat(None));
        and_none.map(move |line| Line::new(self.name, line))
    }
}
