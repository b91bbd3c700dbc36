//! The programs `exos-listing` and `exos-auditor` as people run them.

use std::io::Write;
use std::process::{Child, Command, Output, Stdio};

/// Each program's name, its path, and what it prints of [`STATUS`].
const PROGRAMS: [(&str, &str, &str); 2] = [
    (
        "exos-listing",
        env!("CARGO_BIN_EXE_exos-listing"),
        "20 1 0 0\n",
    ),
    (
        "exos-auditor",
        env!("CARGO_BIN_EXE_exos-auditor"),
        "0 start\n",
    ),
];

const STATUS: [u8; 4] = [2, 0, 20, 0];

fn spawn(path: &str, arguments: &[&str]) -> Child {
    let mut command = Command::new(path);
    command
        .args(arguments)
        .stdin(Stdio::piped())
        .stdout(Stdio::piped())
        .stderr(Stdio::piped());
    command.spawn().unwrap()
}

/// What a run printed, and its exit status.
fn ran(child: Child) -> (String, String, i32) {
    let Output {
        stdout,
        stderr,
        status,
    } = child.wait_with_output().unwrap();
    let [out, err] = [stdout, stderr].map(|bytes| String::from_utf8(bytes).unwrap());
    (out, err, status.code().unwrap())
}

#[test]
fn they_read_their_input() {
    for (_, path, text) in PROGRAMS {
        let mut child = spawn(path, &[]);
        child.stdin.take().unwrap().write_all(&STATUS).unwrap();
        assert_eq!(ran(child), (text.to_string(), String::new(), 0));
    }
}

/// "A program prints `ok`, or number and word."
#[test]
fn an_accepted_log() {
    let start = [6, 0, 0, 1, 0, 1, 8, 255];
    let reply = [6, 0, 0, 2, 0, 2, 0, 1];
    for (log, text) in [([start, reply], "ok\n"), ([start, start], "1 cut\n")] {
        let mut child = spawn(env!("CARGO_BIN_EXE_exos-auditor"), &[]);
        let mut input = child.stdin.take().unwrap();
        input.write_all(&log.concat()).unwrap();
        drop(input);
        assert_eq!(ran(child), (text.to_string(), String::new(), 0));
    }
}

#[test]
fn help_and_arguments_that_they_do_not_take() {
    for (name, path, _) in PROGRAMS {
        let (usage, err, status) = ran(spawn(path, &["--help"]));
        assert_eq!(ran(spawn(path, &["-h"])).0, usage);
        assert_eq!((err.as_str(), status), ("", 0));
        assert!(usage.starts_with(&format!("usage: {name} <LOG\n")));
        for arguments in [&["a.log"][..], &["-x"], &["--help", "a.log"]] {
            let refused = (String::new(), usage.clone(), 2);
            assert_eq!(ran(spawn(path, arguments)), refused);
        }
    }
}

#[test]
fn a_broken_pipe_ends_quietly() {
    for (_, path, _) in PROGRAMS {
        let mut child = spawn(path, &[]);
        drop(child.stdout.take());
        child.stdin.take().unwrap().write_all(&STATUS).unwrap();
        assert_eq!(ran(child), (String::new(), String::new(), 0));
    }
}
