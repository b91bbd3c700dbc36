//! The arguments of a command.

use std::ffi::{OsStr, OsString};

/// The arguments of a command: options with a value, options without, and
/// operands in their order.
#[derive(Debug, Default, PartialEq, Eq)]
pub struct Arguments {
    values: Vec<(&'static str, OsString)>,
    switches: Vec<&'static str>,
    operands: Vec<OsString>,
}

/// An option: its names, the last being the one it is known by, and whether it
/// has a value.
pub struct Choice {
    names: &'static [&'static str],
    has_value: bool,
}

impl Choice {
    /// An option with a value.
    pub const fn value(names: &'static [&'static str]) -> Choice {
        Choice {
            names,
            has_value: true,
        }
    }

    /// An option without a value.
    pub const fn switch(names: &'static [&'static str]) -> Choice {
        Choice {
            names,
            has_value: false,
        }
    }

    fn known_by(&self) -> &'static str {
        self.names.last().copied().unwrap_or_default()
    }
}

impl Arguments {
    /// Sorts the arguments, or says what is wrong with them.
    pub fn read(
        arguments: impl Iterator<Item = OsString>,
        choices: &[Choice],
    ) -> Result<Arguments, String> {
        let mut read = Arguments::default();
        let mut arguments = arguments;
        while let Some(argument) = arguments.next() {
            match argument.to_str() {
                Some("--") => read.operands.extend(arguments.by_ref()),
                Some(option) if option.starts_with('-') && option != "-" => {
                    read.option(option, &mut arguments, choices)?;
                }
                _ => read.operands.push(argument),
            }
        }
        Ok(read)
    }

    fn option(
        &mut self,
        option: &str,
        arguments: &mut impl Iterator<Item = OsString>,
        choices: &[Choice],
    ) -> Result<(), String> {
        let (name, joined) = match option.split_once('=') {
            Some((name, value)) if name.starts_with("--") => (name, Some(value)),
            _ => (option, None),
        };
        let known = |choice: &&Choice| choice.names.contains(&name);
        let Some(choice) = choices.iter().find(known) else {
            return Err(format!("unknown option {name}"));
        };
        let known_by = choice.known_by();
        if self.has(known_by) || self.value(known_by).is_some() {
            return Err(format!("option {name} is given twice"));
        }
        match (choice.has_value, joined) {
            (false, None) => self.switches.push(known_by),
            (false, Some(_)) => return Err(format!("option {name} takes no value")),
            (true, joined) => {
                let value = joined.map(OsString::from).or_else(|| arguments.next());
                let value = value.ok_or_else(|| format!("option {name} needs a value"))?;
                self.values.push((known_by, value));
            }
        }
        Ok(())
    }

    /// Whether an option without a value is given.
    pub fn has(&self, name: &str) -> bool {
        self.switches.contains(&name)
    }

    /// The value of an option.
    pub fn value(&self, name: &str) -> Option<&OsStr> {
        let (_, value) = self.values.iter().find(|(known, _)| *known == name)?;
        Some(value)
    }

    /// The operands: those that must be there, by their names, and at most so
    /// many more.
    pub fn operands(&self, needed: &[&str], more: usize) -> Result<&[OsString], String> {
        if let Some(missing) = needed.get(self.operands.len()) {
            return Err(format!("{missing} is missing"));
        }
        match self.operands.get(needed.len() + more) {
            Some(one) => Err(format!("one operand too many: {}", one.to_string_lossy())),
            None => Ok(&self.operands),
        }
    }
}

#[cfg(test)]
mod tests {
    use super::*;

    const CHOICES: [Choice; 2] = [
        Choice::value(&["-o", "--output"]),
        Choice::switch(&["--text"]),
    ];

    fn read(arguments: &[&str]) -> Result<Arguments, String> {
        Arguments::read(arguments.iter().map(OsString::from), &CHOICES)
    }

    #[test]
    fn options_and_operands_in_any_order() {
        for arguments in [
            &["a", "-o", "x", "--text", "-"][..],
            &["--output=x", "a", "-", "--text"],
            &["--text", "--output", "x", "--", "a", "-"],
        ] {
            let read = read(arguments).unwrap();
            assert_eq!(read.value("--output"), Some(OsStr::new("x")));
            assert!(read.has("--text"));
            assert_eq!(read.operands(&[], 2).unwrap(), ["a", "-"]);
        }
        let read = read(&["--", "-o"]).unwrap();
        assert_eq!(read.operands(&["A"], 0).unwrap(), ["-o"]);
    }

    #[test]
    fn what_is_wrong_is_said() {
        let wrong = |arguments| read(arguments).unwrap_err();
        assert_eq!(wrong(&["--txt"]), "unknown option --txt");
        assert_eq!(wrong(&["-x"]), "unknown option -x");
        assert_eq!(wrong(&["-o"]), "option -o needs a value");
        assert_eq!(wrong(&["--text=1"]), "option --text takes no value");
        assert_eq!(
            wrong(&["-o", "a", "--output=b"]),
            "option --output is given twice"
        );
        let two = read(&["a", "b"]).unwrap();
        assert_eq!(
            two.operands(&["A"], 0).unwrap_err(),
            "one operand too many: b"
        );
        assert_eq!(
            two.operands(&["A", "B", "C"], 0).unwrap_err(),
            "C is missing"
        );
    }
}
