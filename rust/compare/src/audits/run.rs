//! Runs the logs through both auditors, several at a time.

use super::logs::Made;
use super::report::{report, Verdicts};
use super::shrink::shrink;
use super::sides::{independent, Auditor};
use super::table::Table;
use super::trials::{trials, Trial};
use exoslog::counted;
use std::io;
use std::sync::atomic::{AtomicBool, AtomicUsize, Ordering};
use std::thread;

/// A run of all logs.
pub struct Audits {
    /// The seed of what is left to chance.
    pub seed: u64,
    /// How many logs are audited at a time.
    pub pairs: usize,
}

/// What comes of a run.
pub enum Outcome {
    /// Every verdict is the one that was put in.
    Same(Table),
    /// A log on which they differ, shrunk.
    Differs(String),
}

/// What the pairs share.
struct Shared<'a> {
    seed: u64,
    trials: Vec<Trial>,
    next: AtomicUsize,
    ended: AtomicBool,
    proved: &'a dyn Auditor,
}

impl Audits {
    /// What the gate runs.
    pub fn fixed_set() -> Audits {
        Audits { seed: 1, pairs: 2 }
    }

    /// Holds the verdicts on each log against what was put in, and so against each
    /// other: the independent auditor's first, which take no process.
    pub fn compare(&self, proved: &dyn Auditor) -> io::Result<Outcome> {
        let shared = Shared {
            seed: self.seed,
            trials: trials(self.seed),
            next: AtomicUsize::new(0),
            ended: AtomicBool::new(false),
            proved,
        };
        let mut trials = shared.trials.iter();
        if let Some(trial) = trials.find(|trial| is_misjudged(&trial.made())) {
            return Ok(Outcome::Differs(shared.shrunk(trial)?));
        }
        let outcomes: Vec<_> = thread::scope(|scope| {
            let pairs: Vec<_> = (0..self.pairs)
                .map(|_| scope.spawn(|| shared.work()))
                .collect();
            let ends = pairs.into_iter().map(|pair| pair.join());
            ends.map(|end| end.expect("no side panics")).collect()
        });
        let mut all = Table::default();
        for outcome in outcomes {
            match outcome? {
                Outcome::Same(table) => all.join(&table),
                differs => return Ok(differs),
            }
        }
        Ok(Outcome::Same(all))
    }
}

impl Shared<'_> {
    /// The next log, while there is one.
    fn next(&self) -> Option<&Trial> {
        let number = self.next.fetch_add(1, Ordering::Relaxed);
        let goes_on = !self.ended.load(Ordering::Relaxed);
        self.trials.get(number).filter(|_| goes_on)
    }

    fn work(&self) -> io::Result<Outcome> {
        let mut table = Table::default();
        while let Some(trial) = self.next() {
            let made = trial.made();
            if self.proved.verdict(&made.bytes())? != made.expected() {
                self.ended.store(true, Ordering::Relaxed);
                return Ok(Outcome::Differs(self.shrunk(trial)?));
            }
            table.add(trial.sort);
        }
        Ok(Outcome::Same(table))
    }

    /// Whether a verdict is not the one that was put in.
    fn differ(&self, made: &Made) -> io::Result<bool> {
        Ok(is_misjudged(made) || self.proved.verdict(&made.bytes())? != made.expected())
    }

    fn verdicts(&self, made: &Made) -> io::Result<Verdicts> {
        let log = made.bytes();
        Ok(Verdicts {
            expected: made.expected().to_string(),
            proved: self.proved.verdict(&log)?,
            independent: independent(&log),
        })
    }

    /// The least log on which the verdicts differ, and these.
    fn shrunk(&self, trial: &Trial) -> io::Result<String> {
        // a program that cannot be run shows below
        let differs = |made: &Made| self.differ(made).unwrap_or(false);
        let log = shrink(trial.log.clone(), differs);
        let (sort, before) = (trial.sort, trial.made().pieces.len());
        let made = Trial { sort, log }.made();
        let (before, records) = (counted(before, "record"), made.pieces.len());
        let (seed, report) = (self.seed, report(&made, &self.verdicts(&made)?));
        Ok(format!(
            "# a difference, shrunk from {before} to {records}\n\
             # found again by exos-compare --audits --seed {seed}\n{report}"
        ))
    }
}

/// Whether the independent auditor's verdict is not the one that was put in.
fn is_misjudged(made: &Made) -> bool {
    independent(&made.bytes()) != made.expected()
}

#[cfg(test)]
mod tests {
    use super::*;

    /// What comes of the fixed set with another auditor in the proved one's place.
    fn outcome(auditor: impl Fn(&[u8]) -> String + Sync) -> Outcome {
        Audits::fixed_set().compare(&auditor).unwrap()
    }

    #[test]
    fn the_auditor_against_what_was_put_in() {
        match outcome(independent) {
            Outcome::Same(table) => assert_eq!(table.missing(), [""; 0]),
            Outcome::Differs(text) => panic!("{text}"),
        }
    }

    #[test]
    fn an_auditor_that_takes_b_for_a_is_found_and_shrunk() {
        let wrong = |log: &[u8]| independent(log).replace(" a", " b");
        let Outcome::Differs(text) = outcome(wrong) else {
            panic!("no difference was found");
        };
        assert!(text.starts_with("# a difference, shrunk from "), "{text}");
        assert!(text.ends_with("# differs: the proved program\n"), "{text}");
    }

    #[test]
    fn an_auditor_that_accepts_every_log_is_found() {
        let Outcome::Differs(text) = outcome(|_| "ok".to_string()) else {
            panic!("no difference was found");
        };
        assert!(text.contains("# the proved program: ok\n"), "{text}");
    }
}
