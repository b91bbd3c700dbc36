//! What the commands read and write: files, standard input and output.

use super::args::Arguments;
use super::trouble::Trouble;
use exos_modules::of_list;
use exoslog::{begins_with_items, encode, form_of, is_in_words, item_list, module_words, records};
use exoslog::{ItemList, Listing, Log, Mismatch, Mistake, NoRecord, Record};
use std::ffi::{OsStr, OsString};
use std::fs;
use std::io::{self, ErrorKind, IsTerminal, Read, Write};

/// What a log is said to be.
#[derive(Clone, Copy)]
pub(super) enum LogForm {
    Words,
    Records,
    Found,
}

impl LogForm {
    pub(super) fn of(arguments: &Arguments) -> Result<LogForm, Trouble> {
        match arguments.value("--from") {
            None => Ok(LogForm::Found),
            Some(form) if form == "words" => Ok(LogForm::Words),
            Some(form) if form == "records" => Ok(LogForm::Records),
            Some(form) => Err(Trouble::Usage(format!(
                "--from needs words or records, not {}",
                form.to_string_lossy()
            ))),
        }
    }
}

/// A file's name and bytes.
pub(super) struct Input {
    pub(super) name: String,
    pub(super) bytes: Vec<u8>,
}

/// The most mistakes that are shown.
const MOST_SHOWN: usize = 20;

impl Input {
    /// Reads a file; none, or `-`, is standard input.
    pub(super) fn read(file: Option<&OsString>) -> Result<Input, Trouble> {
        let file = file.filter(|file| *file != "-");
        let name = file.map_or("<stdin>".into(), |file| file.to_string_lossy().into_owned());
        let bytes = match file {
            Some(file) => fs::read(file),
            None => {
                let mut bytes = Vec::new();
                io::stdin().lock().read_to_end(&mut bytes).map(|_| bytes)
            }
        };
        match bytes {
            Ok(bytes) => Ok(Input { name, bytes }),
            Err(error) => Err(Trouble::File(format!("cannot read {name}: {error}"))),
        }
    }

    /// The event records of a log in either form.
    pub(super) fn log(&self, form: LogForm) -> Result<Vec<u8>, Trouble> {
        let words = match form {
            LogForm::Words => true,
            LogForm::Records => false,
            LogForm::Found => is_in_words(&self.bytes),
        };
        if !words {
            return Ok(self.bytes.clone());
        }
        encode(&self.bytes).map_err(|mistakes| self.mistakes(&mistakes))
    }

    /// The event records of a log that has no replies.
    pub(super) fn events(&self, form: LogForm) -> Result<Vec<u8>, Trouble> {
        let log = self.log(form)?;
        if Log::of(&log).is_makers {
            let name = &self.name;
            let what = format!("exoslog: {name} is a maker's log: its events have replies\n");
            return Err(Trouble::Input(what));
        }
        Ok(log)
    }

    /// The list of items that the words are.
    pub(super) fn item_list(&self) -> Result<ItemList, Trouble> {
        item_list(&self.bytes).map_err(|mistakes| {
            if self.is_a_list() {
                return self.looks_like("a start and a list of items; exos-module");
            }
            if !begins_with_items(&self.bytes) && module_words(&self.bytes).is_ok() {
                return self.looks_like("a module; exoslog module --decode");
            }
            self.mistakes(&mistakes)
        })
    }

    /// Whether the bytes are a start and items, as the program takes them.
    fn is_a_list(&self) -> bool {
        let list = self.bytes.get(3..).filter(|list| !list.is_empty());
        !is_in_words(&self.bytes) && list.is_some_and(|list| of_list(list).is_some())
    }

    /// The input is in another form, which another command reads.
    fn looks_like(&self, other: &str) -> Trouble {
        let name = &self.name;
        Trouble::Input(format!("exoslog: {name} looks like {other} reads those\n"))
    }

    /// Whether a whole record of a known kind comes first.
    fn begins_with_a_record(&self) -> bool {
        match records(&self.bytes).next() {
            Some(Record::Whole { kind, .. }) => form_of(kind).is_some(),
            _ => false,
        }
    }

    fn mistakes(&self, mistakes: &[Mistake]) -> Trouble {
        if self.begins_with_a_record() {
            return self.looks_like("event records; exoslog decode");
        }
        self.lines_not_right(mistakes, |mistake| mistake.show(&self.name, &self.bytes))
    }

    /// Lines of a listing that make no maker's log.
    pub(super) fn mismatches(&self, mismatches: &[Mismatch]) -> Trouble {
        let name = &self.name;
        self.lines_not_right(mismatches, |Mismatch { line, why }| {
            format!("{name}:{line}: {why}\n")
        })
    }

    /// What is wrong with lines, up to as many as are shown.
    fn lines_not_right<T>(&self, lines: &[T], show: impl Fn(&T) -> String) -> Trouble {
        let mut said: String = lines.iter().take(MOST_SHOWN).map(show).collect();
        if lines.len() > MOST_SHOWN {
            let more = lines.len() - MOST_SHOWN;
            said.push_str(&format!("{}: {more} more lines are not right\n", self.name));
        }
        Trouble::Input(said)
    }

    /// A log has no such record.
    pub(super) fn no_record(&self, none: &NoRecord) -> Trouble {
        Trouble::Input(format!("exoslog: {}\n", none.said_of(&self.name)))
    }

    pub(super) fn listing(&self) -> Listing<'_> {
        Listing {
            name: &self.name,
            text: &self.bytes,
        }
    }
}

/// Standard input can be read once.
pub(super) fn once_standard_input(files: &[OsString]) -> Result<(), Trouble> {
    if files.iter().filter(|file| *file == "-").count() > 1 {
        return Err(Trouble::Usage("standard input is given twice".to_string()));
    }
    Ok(())
}

/// Bytes that are no text go to a terminal only where `-` asks for it.
pub(super) fn keep_from_terminal(output: Option<&OsStr>, what: &str) -> Result<(), Trouble> {
    if output.is_none() && io::stdout().is_terminal() {
        let what =
            format!("{what} are binary: give -o OUT, or send the output to a file or a pipe");
        return Err(Trouble::Usage(what));
    }
    Ok(())
}

/// Writes to a file; none, or `-`, is standard output.
pub(super) fn write(file: Option<&OsStr>, bytes: &[u8]) -> Result<(), Trouble> {
    match file.filter(|file| *file != "-") {
        None => print(bytes),
        Some(file) => fs::write(file, bytes).map_err(|error| {
            let name = file.to_string_lossy();
            Trouble::File(format!("cannot write {name}: {error}"))
        }),
    }
}

/// Writes to standard output.
pub(super) fn print(bytes: &[u8]) -> Result<(), Trouble> {
    let mut output = io::stdout().lock();
    let written = output.write_all(bytes).and_then(|()| output.flush());
    written.map_err(|error| match error.kind() {
        ErrorKind::BrokenPipe => Trouble::BrokenPipe,
        _ => Trouble::File(format!("cannot write standard output: {error}")),
    })
}
