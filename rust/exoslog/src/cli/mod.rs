//! The commands: which there are, their options, and how one is run.

mod args;
mod commands;
mod help;
mod module;
mod program;
mod streams;
mod trouble;

use args::{Arguments, Choice};
use std::ffi::OsString;
use std::process::ExitCode;
use streams::print;
use trouble::{Trouble, DONE};

/// A command: its name, its help, its options and what it does, to an exit
/// status.
struct Command {
    name: &'static str,
    help: &'static str,
    choices: &'static [Choice],
    run: fn(&Arguments) -> Result<u8, Trouble>,
}

const COMMANDS: [Command; 6] = [
    Command {
        name: "encode",
        help: help::ENCODE,
        choices: &[HELP, OUTPUT],
        run: commands::encode,
    },
    Command {
        name: "decode",
        help: help::DECODE,
        choices: &[HELP, OUTPUT, REPLY],
        run: commands::decode,
    },
    Command {
        name: "map",
        help: help::MAP,
        choices: &[HELP, AT, REPLY, SVG, TEXT, FROM],
        run: commands::map,
    },
    Command {
        name: "diff",
        help: help::DIFF,
        choices: &[HELP, FROM],
        run: commands::diff,
    },
    Command {
        name: "audit-log",
        help: help::AUDIT_LOG,
        choices: &[HELP, OUTPUT, FROM],
        run: commands::audit_log,
    },
    Command {
        name: "module",
        help: help::MODULE,
        choices: &[HELP, OUTPUT, WITH, DECODE],
        run: module::module,
    },
];

const HELP: Choice = Choice::switch(&["-h", "--help"]);
const OUTPUT: Choice = Choice::value(&["-o", "--output"]);
const AT: Choice = Choice::value(&["--at"]);
const REPLY: Choice = Choice::value(&["--reply"]);
const SVG: Choice = Choice::value(&["--svg"]);
const TEXT: Choice = Choice::switch(&["--text"]);
const FROM: Choice = Choice::value(&["--from"]);
const WITH: Choice = Choice::value(&["--with"]);
const DECODE: Choice = Choice::switch(&["--decode"]);

/// Runs the command that the arguments ask for.
pub fn run(mut arguments: impl Iterator<Item = OsString>) -> ExitCode {
    let name = arguments.next().unwrap_or_default();
    let name = name.to_string_lossy();
    let (outcome, of) = match COMMANDS.iter().find(|command| command.name == name) {
        Some(command) => (run_command(command, arguments), format!("{name} ")),
        None => (run_bare(&name), String::new()),
    };
    ExitCode::from(outcome.unwrap_or_else(|trouble| trouble.tell(&of)))
}

fn run_command(
    command: &Command,
    arguments: impl Iterator<Item = OsString>,
) -> Result<u8, Trouble> {
    let arguments = Arguments::read(arguments, command.choices)?;
    if arguments.has("--help") {
        print(command.help.as_bytes())?;
        return Ok(DONE);
    }
    (command.run)(&arguments)
}

/// What stands in the place of a command.
fn run_bare(name: &str) -> Result<u8, Trouble> {
    match name {
        "-h" | "--help" => print(help::EXOSLOG.as_bytes())?,
        "-V" | "--version" => {
            print(concat!("exoslog ", env!("CARGO_PKG_VERSION"), "\n").as_bytes())?;
        }
        "" => return Err(Trouble::Usage("a command is missing".to_string())),
        _ => return Err(Trouble::Usage(format!("unknown command {name}"))),
    }
    Ok(DONE)
}
