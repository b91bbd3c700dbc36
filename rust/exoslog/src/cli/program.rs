//! A program that is given an input and asked for its output.

use std::ffi::OsStr;
use std::io::{self, Read, Write};
use std::os::unix::process::ExitStatusExt;
use std::process::{Command, ExitStatus, Stdio};
use std::thread;

/// What a program wrote, and how it ended.
pub(super) struct Ran {
    pub(super) output: Vec<u8>,
    pub(super) end: End,
}

/// How a program ended.
pub(super) enum End {
    Status(u8),
    Signal(u8),
    /// It was stopped, since it wrote more than was asked for.
    WroteTooMuch,
}

/// Runs a program, whose standard error is ours. A thread sends the input, so
/// that the program may write before it has read, or not read all.
pub(super) fn run(program: &OsStr, input: Vec<u8>, most: usize) -> io::Result<Ran> {
    let mut child = Command::new(program)
        .stdin(Stdio::piped())
        .stdout(Stdio::piped())
        .spawn()?;
    if let Some(mut to) = child.stdin.take() {
        // what the program does not read, it has no use for
        let send = move || drop(to.write_all(&input));
        thread::Builder::new().spawn(send)?;
    }
    let mut output = Vec::new();
    if let Some(from) = child.stdout.take() {
        from.take(most as u64 + 1).read_to_end(&mut output)?;
    }
    let is_too_much = output.len() > most;
    if is_too_much {
        child.kill()?;
    }
    let status = child.wait()?;
    let end = if is_too_much {
        End::WroteTooMuch
    } else {
        End::of(status)
    };
    Ok(Ran { output, end })
}

impl End {
    /// A program has a status of a byte, or the signal that ended it.
    fn of(status: ExitStatus) -> End {
        match status.code() {
            Some(code) => End::Status(code as u8),
            None => End::Signal(status.signal().unwrap_or_default() as u8),
        }
    }
}
