//! The other side: what answers a case. The proved program, as the Rattle kit
//! built it.

use crate::protocol::{Case, Reply, REPLY};
use std::env;
use std::ffi::OsStr;
use std::fmt::{self, Display, Formatter};
use std::io::{self, BufReader, ErrorKind, Read, Write};
use std::path::{Path, PathBuf};
use std::process::{Child, ChildStdin, ChildStdout, Command, Stdio};
use std::sync::mpsc::{self, Receiver, RecvTimeoutError, Sender};
use std::thread;
use std::time::Duration;

/// How long a program may take for one reply or verdict.
pub(crate) const LIMIT: Duration = Duration::from_secs(30);

/// One side of the comparison.
pub trait Answerer {
    /// The replies to a case.
    fn replies(&mut self, case: &Case) -> io::Result<Replies>;
}

/// The replies of a side to a case.
pub struct Replies {
    /// In order: fewer than requests where the side stopped.
    pub given: Vec<Reply>,
    /// Why it stopped, if it did.
    pub stop: Stop,
}

/// Why a side gives no more replies.
#[derive(Clone, Copy, Debug, PartialEq, Eq)]
pub enum Stop {
    /// It ended.
    Ended,
    /// It took longer than this.
    Late(Duration),
}

impl Display for Stop {
    fn fmt(&self, to: &mut Formatter<'_>) -> fmt::Result {
        match self {
            Stop::Ended => to.write_str("the program ended without a reply"),
            Stop::Late(limit) => write!(to, "no reply in {} s", limit.as_secs_f32()),
        }
    }
}

/// The other side as a function.
impl<F: FnMut(&Case) -> Vec<Reply>> Answerer for F {
    fn replies(&mut self, case: &Case) -> io::Result<Replies> {
        Ok(Replies {
            given: self(case),
            stop: Stop::Ended,
        })
    }
}

/// The program, started anew where it has stopped.
pub struct Program {
    path: PathBuf,
    running: Option<Running>,
}

impl Program {
    /// The program at a path, not started yet.
    pub fn at(path: &Path) -> Program {
        Program {
            path: path.to_path_buf(),
            running: None,
        }
    }

    fn running(&mut self) -> io::Result<&mut Running> {
        let running = match self.running.take() {
            Some(running) => running,
            None => Running::start(&mut command(&self.path)?, LIMIT)?,
        };
        Ok(self.running.insert(running))
    }
}

impl Answerer for Program {
    fn replies(&mut self, case: &Case) -> io::Result<Replies> {
        let replies = self.running()?.replies(case);
        if replies.given.len() < case.requests.len() {
            self.running = None;
        }
        Ok(replies)
    }
}

/// A started program. Two threads write and read, so that it can keep neither
/// of the two waiting for the other, nor for ever.
struct Running {
    child: Child,
    to: Sender<Vec<u8>>,
    from: Receiver<Reply>,
    limit: Duration,
}

impl Running {
    fn start(command: &mut Command, limit: Duration) -> io::Result<Running> {
        let mut child = command
            .stdin(Stdio::piped())
            .stdout(Stdio::piped())
            .spawn()?;
        let (input, output) = child.stdin.take().zip(child.stdout.take()).expect("piped");
        let (to, streams) = mpsc::channel();
        let (replies, from) = mpsc::channel();
        thread::spawn(move || write_streams(input, streams));
        thread::spawn(move || read_replies(output, replies));
        Ok(Running {
            child,
            to,
            from,
            limit,
        })
    }

    fn replies(&mut self, case: &Case) -> Replies {
        // where the program has ended, the replies show it
        let _ = self.to.send(case.to_stream());
        let mut given = Vec::with_capacity(case.requests.len());
        let mut stop = Stop::Ended;
        while given.len() < case.requests.len() {
            match self.from.recv_timeout(self.limit) {
                Ok(reply) => given.push(reply),
                Err(RecvTimeoutError::Disconnected) => break,
                Err(RecvTimeoutError::Timeout) => {
                    stop = Stop::Late(self.limit);
                    break;
                }
            }
        }
        Replies { given, stop }
    }
}

/// Writes until the program ends or no more streams come.
fn write_streams(mut input: ChildStdin, streams: Receiver<Vec<u8>>) {
    let _ = streams
        .into_iter()
        .try_for_each(|stream| input.write_all(&stream));
}

/// Reads until the program ends or nobody asks for replies.
fn read_replies(output: ChildStdout, replies: Sender<Reply>) {
    let mut output = BufReader::new(output);
    let mut bytes = [0; REPLY];
    while output.read_exact(&mut bytes).is_ok() {
        if replies.send(Reply::from_bytes(&bytes)).is_err() {
            return;
        }
    }
}

impl Drop for Running {
    fn drop(&mut self) {
        let _ = self.child.kill();
        let _ = self.child.wait();
    }
}

/// Where the program is: named by EXOS_ANSWER, or built in this repository.
pub fn find_program() -> io::Result<PathBuf> {
    find_built("exos_answer", "EXOS_ANSWER")
}

/// Where the program of a crate is: named by a variable, or built in this
/// repository.
pub(crate) fn find_built(name: &str, variable: &str) -> io::Result<PathBuf> {
    let built = Path::new(env!("CARGO_MANIFEST_DIR"))
        .join("../../crates")
        .join(name)
        .join("out")
        .join(name);
    let path = env::var_os(variable).map_or(built, PathBuf::from);
    if path.is_file() {
        Ok(path)
    } else {
        Err(missing(&format!(
            "there is no proved program at {}: run `rt run` in crates/{name}, or set {variable}",
            path.display()
        )))
    }
}

fn missing(what: &str) -> io::Error {
    io::Error::new(ErrorKind::NotFound, what)
}

/// How a program is run: as it stands, and on another processor than x86-64
/// under an emulator.
pub(crate) fn command(program: &Path) -> io::Result<Command> {
    if env::consts::ARCH == "x86_64" {
        return Ok(Command::new(program));
    }
    let path = env::var_os("PATH").unwrap_or_default();
    let emulator = find(&path, "qemu-x86_64").ok_or_else(|| {
        missing("qemu-x86_64, which a program for x86-64 needs here, is not on the PATH")
    })?;
    let mut command = Command::new(emulator);
    command.arg(program);
    Ok(command)
}

fn find(path: &OsStr, name: &str) -> Option<PathBuf> {
    env::split_paths(path)
        .map(|folder| folder.join(name))
        .find(|file| file.is_file())
}

#[cfg(test)]
mod tests {
    use super::*;
    use crate::cases::played;
    use crate::protocol::{Request, IMAGE};

    #[test]
    fn replies_are_read_in_order() {
        // a request is longer than a reply, so that its echo is enough for one
        let case = Case {
            image: [7; IMAGE],
            ram_length: 1,
            seed: 2,
            requests: vec![Request::new(3, 22, &[4; REPLY]); 20],
        };
        let mut echo = Running::start(&mut Command::new("cat"), LIMIT).unwrap();
        let replies = echo.replies(&case).given;
        let sent = case.to_stream();
        let parts = sent.chunks_exact(REPLY).take(20);
        let expected: Vec<_> = parts
            .map(|part| Reply::from_bytes(part.try_into().unwrap()))
            .collect();
        assert_eq!((replies.len(), replies), (20, expected));
    }

    /// What a command replies to a case within a fifth of a second.
    fn stopped(command: &mut Command) -> (Vec<Reply>, Stop) {
        let limit = Duration::from_millis(200);
        let mut running = Running::start(command, limit).unwrap();
        let replies = running.replies(&played(1, 0).case);
        (replies.given, replies.stop)
    }

    #[test]
    fn a_program_that_ends_gives_no_reply() {
        assert_eq!(stopped(&mut Command::new("true")), (vec![], Stop::Ended));
    }

    #[test]
    fn a_program_that_reads_and_never_replies_is_late() {
        let mut script = Command::new("sh");
        let (given, stop) = stopped(script.args(["-c", "cat >/dev/null"]));
        assert_eq!(given, []);
        assert_eq!(stop.to_string(), "no reply in 0.2 s");
    }

    #[test]
    fn a_program_that_does_not_even_read_is_late() {
        let (given, stop) = stopped(Command::new("sleep").arg("60"));
        assert_eq!(given, []);
        assert_eq!(stop.to_string(), "no reply in 0.2 s");
    }

    #[test]
    fn programs_are_found_on_the_path() {
        let here = Path::new(env!("CARGO_MANIFEST_DIR"));
        let path = env::join_paths([&here.join("nowhere"), &here.join("src")]).unwrap();
        assert_eq!(find(&path, "lib.rs"), Some(here.join("src/lib.rs")));
        assert_eq!(find(&path, "rt"), None);
    }
}
