//! Runs of the command, and files for them.

use std::fs;
use std::io::Write;
use std::path::PathBuf;
use std::process::{Command, Output, Stdio};

/// What a run printed, and its exit status.
#[derive(Debug, PartialEq, Eq)]
pub struct Ran {
    pub status: i32,
    pub out: Vec<u8>,
    pub err: String,
}

impl From<Output> for Ran {
    fn from(output: Output) -> Ran {
        Ran {
            status: output.status.code().unwrap(),
            out: output.stdout,
            err: String::from_utf8(output.stderr).unwrap(),
        }
    }
}

/// A run ended so, and printed this.
#[track_caller]
pub fn holds(ran: Ran, status: i32, out: &[u8], err: &str) {
    assert_eq!((ran.status, ran.err.as_str()), (status, err));
    assert_eq!(ran.out, out);
}

impl Ran {
    pub fn text(&self) -> &str {
        std::str::from_utf8(&self.out).unwrap()
    }
}

fn exoslog(arguments: &[&str]) -> Command {
    let mut command = Command::new(env!("CARGO_BIN_EXE_exoslog"));
    command
        .args(arguments)
        .stdin(Stdio::piped())
        .stdout(Stdio::piped())
        .stderr(Stdio::piped());
    command
}

fn ran(mut command: Command, input: &[u8]) -> Ran {
    let mut child = command.spawn().unwrap();
    // a run that reads no input may have ended
    let _ = child.stdin.take().unwrap().write_all(input);
    child.wait_with_output().unwrap().into()
}

pub fn run(arguments: &[&str], input: &[u8]) -> Ran {
    ran(exoslog(arguments), input)
}

/// A program that does what STAND_IN says.
pub const STAND_IN: &str = concat!(env!("CARGO_MANIFEST_DIR"), "/tests/data/stand-in");

/// A run of `module --with` a program that does what some shell says.
pub fn run_with(does: &str, arguments: &[&str], input: &[u8]) -> Ran {
    ran(module_with(does, arguments), input)
}

fn module_with(does: &str, arguments: &[&str]) -> Command {
    let mut command = exoslog(&["module", "--with", STAND_IN]);
    command.args(arguments).env("STAND_IN", does);
    command
}

/// A run whose output nobody reads, from before its input is there.
pub fn run_unread(arguments: &[&str], input: &[u8]) -> Ran {
    ran_unread(exoslog(arguments), input)
}

/// Such a run of `module --with` a program.
pub fn run_with_unread(does: &str, input: &[u8]) -> Ran {
    ran_unread(module_with(does, &[]), input)
}

fn ran_unread(mut command: Command, input: &[u8]) -> Ran {
    let mut child = command.spawn().unwrap();
    drop(child.stdout.take());
    child.stdin.take().unwrap().write_all(input).unwrap();
    child.wait_with_output().unwrap().into()
}

/// A file of a test's own.
pub struct File(pub PathBuf);

impl File {
    pub fn new(name: &str, bytes: &[u8]) -> File {
        let path = PathBuf::from(env!("CARGO_TARGET_TMPDIR")).join(name);
        fs::write(&path, bytes).unwrap();
        File(path)
    }

    pub fn name(&self) -> &str {
        self.0.to_str().unwrap()
    }
}

impl Drop for File {
    fn drop(&mut self) {
        // a file that stays is written anew by the next run
        let _ = fs::remove_file(&self.0);
    }
}
