//! The README's audit, and what docs/LOGS.md shows: each command prints what
//! stands below it.

use std::env;
use std::fs;
use std::path::{Path, PathBuf};
use std::process::Command;

/// The repository.
fn root() -> PathBuf {
    let root = Path::new(env!("CARGO_MANIFEST_DIR")).join("../..");
    root.canonicalize().unwrap()
}

/// The lines of a document's section that are set in.
fn transcript(document: &str, section: &str) -> Vec<String> {
    let text = fs::read_to_string(root().join(document)).unwrap();
    let (_, text) = text.split_once(&format!("\n## {section}\n")).unwrap();
    let (text, _) = text.split_once("\n## ").unwrap();
    let lines = text.lines().filter_map(|line| line.strip_prefix("    "));
    lines.map(str::to_string).collect()
}

/// A script that runs a proved program, the program, and an input on which it
/// ends well.
struct Proved {
    script: &'static str,
    program: &'static str,
    input: &'static str,
}

const PROVED: [Proved; 3] = [
    Proved {
        script: "exos-list",
        program: "crates/exos_list/out/exos_list",
        input: "",
    },
    Proved {
        script: "exos-audit",
        program: "crates/exos_audit/out/exos_audit",
        input: r"\10\0\0\1\102\53\374\375\376\377\6\0\0\2\0\4\102\53",
    },
    Proved {
        script: "exos-module",
        program: "crates/exos_module/out/exos_module",
        input: r"\0\0\0",
    },
];

/// The proved programs that the commands ask for.
fn asked(transcript: &[String]) -> impl Iterator<Item = &'static Proved> + '_ {
    let commands = || transcript.iter().filter(|line| line.starts_with("$ "));
    let is_asked = move |proved: &&Proved| commands().any(|line| line.contains(proved.script));
    PROVED.iter().filter(is_asked)
}

/// A script that prints each command and runs it. A first run of each program,
/// which may have something to say on how it was built, comes before.
fn script(transcript: &[String]) -> String {
    let mut script = String::new();
    for Proved {
        script: name,
        input,
        ..
    } in asked(transcript)
    {
        script.push_str(&format!("printf '{input}' | {name} - >&2\n"));
    }
    script.push_str("exec 2>&1\n");
    for command in transcript.iter().filter_map(|line| line.strip_prefix("$ ")) {
        let quoted = command.replace('\'', r"'\''");
        script.push_str(&format!("printf '$ %s\\n' '{quoted}'\n{command}\n"));
    }
    script
}

/// Runs the commands in a room of that name, and holds what they print to what
/// stands below them.
fn holds(transcript: &[String], room: &str) {
    let root = root();
    let missing = asked(transcript).find(|proved| !root.join(proved.program).exists());
    if let Some(Proved {
        script, program, ..
    }) = missing
    {
        eprintln!("left out: this needs {program}, which ./{script} builds");
        return;
    }
    let room = Path::new(env!("CARGO_TARGET_TMPDIR")).join(room);
    fs::create_dir_all(&room).unwrap();
    let tools = Path::new(env!("CARGO_BIN_EXE_exoslog")).parent().unwrap();
    let others = env::var_os("PATH").unwrap_or_default();
    let mut path = vec![tools.to_path_buf(), root.clone()];
    path.extend(env::split_paths(&others));

    let ran = Command::new("bash")
        .args(["-c", &script(transcript)])
        .current_dir(root)
        .env("PATH", env::join_paths(path).unwrap())
        .env("TMPDIR", &room)
        .output()
        .unwrap();
    fs::remove_dir_all(room).unwrap();
    let printed = String::from_utf8(ran.stdout).unwrap();
    assert_eq!(printed.lines().collect::<Vec<_>>(), transcript);
}

#[test]
fn the_audit_of_the_readme() {
    let audit = transcript("README.md", "An audit");
    // the first command builds the tools and sets the path
    assert!(audit[0].starts_with("$ (cd rust && cargo build"));
    holds(&audit[1..], "readme");
}

#[test]
fn the_example_of_a_listing() {
    holds(&transcript("docs/LOGS.md", "A listing"), "logs");
}

#[test]
fn the_example_of_a_makers_log() {
    holds(&transcript("docs/LOGS.md", "A maker's log"), "maker");
}

#[test]
fn the_example_of_bytes_moved() {
    let moved = transcript("docs/LOGS.md", "What closes and links move");
    holds(&moved, "moved");
}

#[test]
fn the_example_of_a_module() {
    holds(&transcript("docs/LOGS.md", "A module"), "module");
}

#[test]
fn the_example_of_writing_a_module() {
    holds(&transcript("docs/LOGS.md", "Writing a module"), "writing");
}
