//! What each command over logs does, to an exit status.

use super::args::Arguments;
use super::streams::{keep_from_terminal, once_standard_input, print, write, Input, LogForm};
use super::trouble::{say, Trouble, DONE, NOT_RIGHT};
use exoslog::{decode_reply, is_in_words, svg, terminal, At};

pub(super) fn encode(arguments: &Arguments) -> Result<u8, Trouble> {
    let file = arguments.operands(&[], 1)?.first();
    let output = arguments.value("--output");
    keep_from_terminal(output, "event records")?;
    let input = Input::read(file)?;
    write(output, &input.log(LogForm::Words)?)?;
    Ok(DONE)
}

pub(super) fn decode(arguments: &Arguments) -> Result<u8, Trouble> {
    let reply = number(arguments, "--reply")?;
    let input = Input::read(arguments.operands(&[], 1)?.first())?;
    if !input.bytes.is_empty() && is_in_words(&input.bytes) {
        let name = &input.name;
        say(&format!(
            "exoslog: {name} looks like a log in words; exoslog encode reads those\n"
        ));
    }
    let words = match reply {
        Some(number) => {
            decode_reply(&input.bytes, number).map_err(|none| input.no_record(&none))?
        }
        None => exoslog::decode(&input.bytes),
    };
    write(arguments.value("--output"), words.as_bytes())?;
    Ok(DONE)
}

pub(super) fn map(arguments: &Arguments) -> Result<u8, Trouble> {
    let form = LogForm::of(arguments)?;
    let drawing = arguments.value("--svg");
    if drawing.is_some() && arguments.has("--text") {
        return Err(Trouble::Usage("--svg and --text are given".to_string()));
    }
    let at = match (number(arguments, "--at")?, number(arguments, "--reply")?) {
        (None, None) => At::End,
        (Some(record), None) => At::After(record),
        (None, Some(number)) => At::Reply(number),
        _ => return Err(Trouble::Usage("--at and --reply are given".to_string())),
    };
    let input = Input::read(arguments.operands(&[], 1)?.first())?;
    let map = exoslog::map(&input.log(form)?, at).map_err(|none| input.no_record(&none))?;
    match drawing {
        Some(_) => write(drawing, svg(&map).as_bytes())?,
        None => print(terminal(&map).as_bytes())?,
    }
    Ok(DONE)
}

/// The record's number that an option gives.
fn number(arguments: &Arguments, option: &str) -> Result<Option<usize>, Trouble> {
    let Some(word) = arguments.value(option) else {
        return Ok(None);
    };
    match word.to_str().and_then(|word| word.parse().ok()) {
        Some(number) => Ok(Some(number)),
        None => {
            let word = word.to_string_lossy();
            let what = format!("{option} needs a record's number, not {word}");
            Err(Trouble::Usage(what))
        }
    }
}

pub(super) fn diff(arguments: &Arguments) -> Result<u8, Trouble> {
    let form = LogForm::of(arguments)?;
    let files = arguments.operands(&["LISTING1", "LISTING2"], 1)?;
    once_standard_input(files)?;
    let one = Input::read(files.first())?;
    let two = Input::read(files.get(1))?;
    let log = match files.get(2) {
        // a log with mistakes is trouble, since 1 says that the listings differ
        Some(file) => Some(
            Input::read(Some(file))?
                .log(form)
                .map_err(as_file_trouble)?,
        ),
        None => None,
    };
    match exoslog::diff(one.listing(), two.listing(), log.as_deref()) {
        Some(difference) => match print(difference.as_bytes()) {
            // where nobody reads the difference, the status still tells of it
            Ok(()) | Err(Trouble::BrokenPipe) => Ok(NOT_RIGHT),
            Err(trouble) => Err(trouble),
        },
        None => Ok(DONE),
    }
}

/// Mistakes in a file as trouble with that file.
fn as_file_trouble(trouble: Trouble) -> Trouble {
    match trouble {
        Trouble::Input(what) => Trouble::File(format!("the log is not right\n{}", what.trim_end())),
        other => other,
    }
}

pub(super) fn audit_log(arguments: &Arguments) -> Result<u8, Trouble> {
    let form = LogForm::of(arguments)?;
    let files = arguments.operands(&["LOG", "LISTING"], 0)?;
    once_standard_input(files)?;
    let output = arguments.value("--output");
    keep_from_terminal(output, "event records and replies")?;
    let log = Input::read(files.first())?.events(form)?;
    let listing = Input::read(files.get(1))?;
    let made = exoslog::audit_log(&log, listing.listing())
        .map_err(|mismatches| listing.mismatches(&mismatches))?;
    write(output, &made)?;
    Ok(DONE)
}
