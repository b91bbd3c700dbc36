//! The command `module`: items in words to the input of the program that writes
//! modules, or to its module; and a module to words.

use super::args::Arguments;
use super::program::{run, End};
use super::streams::{keep_from_terminal, write, Input};
use super::trouble::{say, Trouble, DONE};
use exoslog::{begins_with_items, counted, module_words, ItemList};
use std::ffi::OsStr;

/// The bytes of the program's buffer.
const BUFFER: usize = 65_536;

/// The statuses of the program that are refusals: the answers' numbers.
const RANGE: u8 = 13;
const PAGE: u8 = 20;

/// What a shell adds to the number of the signal that ended a program.
const SIGNALLED: u8 = 128;

pub(super) fn module(arguments: &Arguments) -> Result<u8, Trouble> {
    let file = arguments.operands(&[], 1)?.first();
    let output = arguments.value("--output");
    let program = arguments.value("--with");
    if arguments.has("--decode") {
        if program.is_some() {
            return Err(Trouble::Usage("--decode and --with are given".to_string()));
        }
        return decode(&Input::read(file)?, output);
    }
    keep_from_terminal(output, "items and modules")?;
    let input = Input::read(file)?;
    let list = input.item_list()?;
    match program {
        Some(program) => make(program, &input, &list, output),
        None => {
            write(output, &list.input())?;
            Ok(DONE)
        }
    }
}

fn decode(input: &Input, output: Option<&OsStr>) -> Result<u8, Trouble> {
    let name = &input.name;
    if begins_with_items(&input.bytes) {
        say(&format!(
            "exoslog: {name} looks like items in words; exoslog module reads those\n"
        ));
    }
    let words = module_words(&input.bytes)
        .map_err(|no_module| Trouble::Input(format!("{name}: {no_module}\n")))?;
    write(output, words.as_bytes())?;
    Ok(DONE)
}

/// Has the program make the module. What it gives is read back before it is
/// written: a wrong program's output is no module.
fn make(
    program: &OsStr,
    input: &Input,
    list: &ItemList,
    output: Option<&OsStr>,
) -> Result<u8, Trouble> {
    let name = program.to_string_lossy();
    let ran = run(program, list.input(), BUFFER)
        .map_err(|error| Trouble::File(format!("cannot run {name}: {error}")))?;
    let (said, status) = match ran.end {
        End::Status(DONE) if list.is_module(&ran.output) => {
            write(output, &ran.output)?;
            return Ok(DONE);
        }
        End::Status(DONE) => {
            let what = format!("{name} is done, but did not give the module of these items");
            return Err(Trouble::File(what));
        }
        End::WroteTooMuch => {
            let what = format!("{name} writes more than {BUFFER} bytes: this is no module");
            return Err(Trouble::File(what));
        }
        End::Status(PAGE) => (page_fault(input, list), PAGE),
        End::Status(RANGE) => (too_long(list), RANGE),
        End::Status(status) => (
            format!("exoslog: {name} ended with status {status}: no module\n"),
            status,
        ),
        End::Signal(signal) => (
            format!("exoslog: {name} was ended by signal {signal}: no module\n"),
            SIGNALLED.saturating_add(signal),
        ),
    };
    say(&said);
    Ok(status)
}

/// Why the program refuses with 20 PAGE. It names no item.
fn page_fault(input: &Input, list: &ItemList) -> String {
    match list.page_fault() {
        Some(fault) => {
            let why = format!("{} (exoslog's reading of the page rule)", fault.why);
            fault.place.show(&input.name, &input.bytes, &why)
        }
        None => "exoslog: by exoslog's reading of the page rule no item is at fault\n".to_string(),
    }
}

/// Why the program refuses with 13 RANGE.
fn too_long(list: &ItemList) -> String {
    let length = counted(list.module_length(), "byte");
    format!("exoslog: the module would have {length}, and the program's buffer has {BUFFER}\n")
}
