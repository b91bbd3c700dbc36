//! Why a command ended early, and the exit statuses.

use std::io::{self, Write};

/// Why a command ended early.
pub(super) enum Trouble {
    /// A wrong use.
    Usage(String),
    /// A file cannot be read or written.
    File(String),
    /// The input is not right; what is said of it.
    Input(String),
    /// Nobody reads the output.
    BrokenPipe,
}

/// A wrong use.
impl From<String> for Trouble {
    fn from(what: String) -> Trouble {
        Trouble::Usage(what)
    }
}

/// Done; of `diff`, the same.
pub(super) const DONE: u8 = 0;
/// The input is not right; of `diff`, they differ.
pub(super) const NOT_RIGHT: u8 = 1;
/// A wrong use, or a file that cannot be read or written.
const TROUBLE: u8 = 2;

impl Trouble {
    /// Tells the trouble on standard error, with the command whose help is
    /// to be tried; the exit status.
    pub(super) fn tell(self, of: &str) -> u8 {
        let (said, status) = match self {
            Trouble::Usage(what) => (
                format!("exoslog: {what}\nTry exoslog {of}--help.\n"),
                TROUBLE,
            ),
            Trouble::File(what) => (format!("exoslog: {what}\n"), TROUBLE),
            Trouble::Input(what) => (what, NOT_RIGHT),
            Trouble::BrokenPipe => return DONE,
        };
        say(&said);
        status
    }
}

/// Says something on standard error.
pub(super) fn say(said: &str) {
    // where standard error cannot be written, there is nobody to tell
    let _ = io::stderr().write_all(said.as_bytes());
}
