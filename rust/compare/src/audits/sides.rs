//! The two sides: the proved program, a process a log, and the independent
//! auditor.

use crate::program::{command, find_built, LIMIT};
use crate::quietly::quietly;
use exos_kernel::audit;
use std::io::{self, Read, Write};
use std::path::PathBuf;
use std::process::{Command, Stdio};
use std::sync::mpsc;
use std::thread;
use std::time::Duration;

/// What is held against the independent auditor.
pub trait Auditor: Sync {
    /// The line that it prints for a log, without its newline.
    fn verdict(&self, log: &[u8]) -> io::Result<String>;
}

/// An auditor as a function.
impl<F: Fn(&[u8]) -> String + Sync> Auditor for F {
    fn verdict(&self, log: &[u8]) -> io::Result<String> {
        Ok(self(log))
    }
}

/// The independent auditor's verdict.
pub fn independent(log: &[u8]) -> String {
    match quietly(|| audit(log)) {
        Some(Ok(verdict)) => verdict.to_string(),
        Some(Err(error)) => error.to_string(),
        None => "a panic".to_string(),
    }
}

/// The proved program.
pub struct Proved {
    path: PathBuf,
}

/// The proved program: named by EXOS_AUDIT, or built in this repository.
pub fn find_auditor() -> io::Result<Proved> {
    let path = find_built("exos_audit", "EXOS_AUDIT")?;
    Ok(Proved { path })
}

impl Auditor for Proved {
    fn verdict(&self, log: &[u8]) -> io::Result<String> {
        said(&mut command(&self.path)?, log, LIMIT)
    }
}

/// What a command prints for a log. Two threads write and read, so that it can
/// keep neither of the two waiting for the other, nor for ever.
fn said(command: &mut Command, log: &[u8], limit: Duration) -> io::Result<String> {
    let mut child = command
        .stdin(Stdio::piped())
        .stdout(Stdio::piped())
        .spawn()?;
    let (mut input, mut output) = child.stdin.take().zip(child.stdout.take()).expect("piped");
    let (to, from) = mpsc::channel();
    thread::scope(|scope| {
        // a program that has found a fault may not read on
        scope.spawn(move || drop(input.write_all(log)));
        scope.spawn(move || {
            let mut text = Vec::new();
            let read = output.read_to_end(&mut text);
            // nobody asks for it any more where it was late
            let _ = to.send(read.map(|_| text));
        });
        let text = from.recv_timeout(limit);
        // it has said all that it will, or is late
        let _ = child.kill();
        let status = child.wait()?;
        Ok(match text {
            Err(_) => format!("nothing in {} s", limit.as_secs_f32()),
            Ok(text) => match text? {
                text if text.is_empty() => format!("nothing, {status}"),
                text => line(&text),
            },
        })
    })
}

/// "One line with a newline": the line; of any other text what stands there.
fn line(text: &[u8]) -> String {
    let text = String::from_utf8_lossy(text);
    match text.strip_suffix('\n') {
        Some(line) if !line.contains('\n') => line.to_string(),
        _ => format!("{text:?}"),
    }
}

#[cfg(test)]
mod tests {
    use super::*;

    /// What a script prints for a log within a second.
    fn script(text: &str, log: &[u8]) -> String {
        let limit = Duration::from_secs(1);
        said(Command::new("sh").args(["-c", text]), log, limit).unwrap()
    }

    #[test]
    fn a_line_is_read() {
        assert_eq!(script("cat", b"3 cut\n"), "3 cut");
        assert_eq!(script("cat", b"3 cut"), "\"3 cut\"");
        assert_eq!(script("cat", b"ok\nok\n"), "\"ok\\nok\\n\"");
    }

    #[test]
    fn a_program_that_does_not_read_or_print() {
        let log = vec![0; 1 << 20];
        assert_eq!(script("echo 0 start", &log), "0 start");
        assert_eq!(script("exit 3", &log), "nothing, exit status: 3");
        assert_eq!(script("exec sleep 60", &log), "nothing in 1 s");
    }
}
