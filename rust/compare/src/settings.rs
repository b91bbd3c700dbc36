//! What the words after `exos-compare` ask for.

use crate::audits::Audits;
use crate::run::{Run, Until};

/// How `exos-compare` is called.
pub const USAGE: &str = "\
exos-compare: holds the Rust kernel against the proved program, call by call

usage: exos-compare [OPTION...]

  --calls N      so many calls, to the end of a case (default: 1000000)
  --fixed-set    the cases that the gate runs, in place of --calls
  --audits       makers' logs for the auditors, in place of calls; takes --seed,
                 --pairs and --table
  --seed S       the seed of all cases (default: 1)
  --first CASE   the number of the first case (default: 0)
  --pairs P      how many pairs of kernels work beside each other, 1 to 64
                 (default: 2)
  --table        also how often each kind got each answer and each edge was met,
                 or each fault was put in

The proved program is crates/exos_answer/out/exos_answer, which rt run builds there,
or EXOS_ANSWER. A difference is shrunk and told as a log in words, which exoslog
encode reads; what the writer of modules is asked stands there in comments. The
proved auditor is crates/exos_audit/out/exos_audit, which rt run builds there, or
EXOS_AUDIT; its difference is told as the log in hex.

exit status: 0 no difference, 1 a difference, 2 trouble.";

/// What is asked for.
pub enum Asked {
    /// How it is called.
    Help,
    /// A run, and whether its table is asked for.
    Run(Run, bool),
    /// A run of the auditors, and whether its table is asked for.
    Audits(Audits, bool),
}

/// What the words ask for, or what is wrong with them.
pub fn asked(mut words: impl Iterator<Item = String>) -> Result<Asked, String> {
    let mut run = Run {
        seed: 1,
        first: 0,
        until: Until::Calls(1_000_000),
        pairs: 2,
    };
    let (mut audits, mut table) = (false, false);
    while let Some(word) = words.next() {
        match word.as_str() {
            "--help" => return Ok(Asked::Help),
            "--fixed-set" => run = Run::fixed_set(),
            "--audits" => audits = true,
            "--calls" => run.until = Until::Calls(calls(&word, words.next())?),
            "--seed" => run.seed = number(&word, words.next())?,
            "--first" => run.first = number(&word, words.next())?,
            "--pairs" => run.pairs = number(&word, words.next())?.clamp(1, 64) as usize,
            "--table" => table = true,
            _ => return Err(format!("{word} is not known")),
        }
    }
    Ok(if audits {
        let Run { seed, pairs, .. } = run;
        Asked::Audits(Audits { seed, pairs }, table)
    } else {
        Asked::Run(run, table)
    })
}

/// A run of no call would find no difference and say so.
fn calls(option: &str, word: Option<String>) -> Result<u64, String> {
    match number(option, word)? {
        0 => Err(format!("{option}: 1 at least")),
        calls => Ok(calls),
    }
}

fn number(option: &str, word: Option<String>) -> Result<u64, String> {
    let word = word.ok_or_else(|| format!("{option}: no number follows"))?;
    word.parse()
        .map_err(|_| format!("{option}: {word} is no number"))
}

#[cfg(test)]
mod tests {
    use super::*;

    fn said(words: &str) -> Result<Asked, String> {
        asked(words.split_whitespace().map(str::to_string))
    }

    #[test]
    fn a_run() {
        let Ok(Asked::Run(run, table)) = said("--calls 9 --seed 8 --first 7 --pairs 0") else {
            panic!("no run");
        };
        assert!(matches!(run.until, Until::Calls(9)) && !table);
        assert_eq!((run.seed, run.first, run.pairs), (8, 7, 1));
    }

    #[test]
    fn what_help_says_is_the_default() {
        let Ok(Asked::Run(run, false)) = said("") else {
            panic!("no run");
        };
        let Until::Calls(calls) = run.until else {
            panic!("no calls");
        };
        let defaults = [calls, run.seed, run.first, run.pairs as u64];
        let mut told = USAGE.split("(default: ").skip(1);
        assert!(defaults
            .iter()
            .all(|value| told.next().unwrap().starts_with(&format!("{value})"))));
    }

    #[test]
    fn the_fixed_set_and_help() {
        let fixed = said("--fixed-set --table");
        assert!(matches!(fixed, Ok(Asked::Run(run, true)) if matches!(run.until, Until::Cases(_))));
        assert!(matches!(said("--help"), Ok(Asked::Help)));
    }

    #[test]
    fn audits() {
        let Ok(Asked::Audits(audits, true)) = said("--seed 8 --audits --pairs 3 --table") else {
            panic!("no audits");
        };
        assert_eq!((audits.seed, audits.pairs), (8, 3));
    }

    #[test]
    fn what_is_wrong() {
        let wrong = |words| said(words).err();
        assert_eq!(wrong("--calls x").unwrap(), "--calls: x is no number");
        assert_eq!(wrong("--calls 0").unwrap(), "--calls: 1 at least");
        assert_eq!(wrong("--seed").unwrap(), "--seed: no number follows");
        assert_eq!(wrong("--bogus").unwrap(), "--bogus is not known");
    }
}
