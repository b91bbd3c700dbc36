//! Runs the cases of a seed through both sides, several at a time.

use crate::cases::played;
use crate::counts::Counts;
use crate::judge::Difference;
use crate::player::Played;
use crate::program::{Answerer, Stop};
use crate::protocol::Case;
use crate::report::report;
use crate::shrink::shrink;
use exoslog::counted;
use std::io;
use std::sync::atomic::{AtomicBool, AtomicU64, Ordering};
use std::thread;

/// When a run ends.
#[derive(Clone, Copy)]
pub enum Until {
    /// After so many cases.
    Cases(u64),
    /// After so many calls, to the end of a case.
    Calls(u64),
}

/// What comes of a run.
pub enum Outcome {
    /// No difference.
    Same(Box<Counts>),
    /// A difference, shrunk, as a log in words.
    Differs(String),
}

/// A run: which cases, and how many at a time.
pub struct Run {
    /// The seed of all cases.
    pub seed: u64,
    /// The number of the first case.
    pub first: u64,
    /// How far.
    pub until: Until,
    /// How many pairs of sides work beside each other.
    pub pairs: usize,
}

/// What the pairs share.
struct Shared<'a> {
    run: &'a Run,
    cases: AtomicU64,
    calls: AtomicU64,
    ended: AtomicBool,
}

impl Run {
    /// What the gate runs.
    pub fn fixed_set() -> Run {
        Run {
            seed: 1,
            first: 0,
            until: Until::Cases(5_000),
            pairs: 2,
        }
    }

    /// Runs the cases. `program` makes the other side for each pair; `told`
    /// hears the number of calls after each case.
    pub fn compare<A: Answerer>(
        &self,
        program: impl Fn() -> A + Sync,
        told: impl Fn(u64) + Sync,
    ) -> io::Result<Outcome> {
        let shared = Shared {
            run: self,
            cases: AtomicU64::new(self.first),
            calls: AtomicU64::new(0),
            ended: AtomicBool::new(false),
        };
        let outcomes: Vec<_> = thread::scope(|scope| {
            let work = || shared.work(&mut program(), &told);
            let pairs: Vec<_> = (0..self.pairs).map(|_| scope.spawn(work)).collect();
            let ends = pairs.into_iter().map(|pair| pair.join());
            ends.map(|end| end.expect("no side panics")).collect()
        });
        let mut all = Counts::new();
        for outcome in outcomes {
            match outcome? {
                Outcome::Same(counts) => all.join(&counts),
                differs => return Ok(differs),
            }
        }
        Ok(Outcome::Same(Box::new(all)))
    }
}

impl Shared<'_> {
    /// The number of the next case, while there is one.
    fn next(&self) -> Option<u64> {
        let number = self.cases.fetch_add(1, Ordering::Relaxed);
        let goes_on = match self.run.until {
            Until::Cases(cases) => number - self.run.first < cases,
            Until::Calls(calls) => self.calls.load(Ordering::Relaxed) < calls,
        };
        (goes_on && !self.ended.load(Ordering::Relaxed)).then_some(number)
    }

    fn work(&self, program: &mut dyn Answerer, told: &impl Fn(u64)) -> io::Result<Outcome> {
        let mut all = Counts::new();
        while let Some(number) = self.next() {
            let Played {
                case,
                replies,
                counts,
            } = played(self.run.seed, number);
            if let Some(found) = Difference::first(&replies, &program.replies(&case)?) {
                self.ended.store(true, Ordering::Relaxed);
                let seed = self.run.seed;
                let again = format!(
                    "# found again by exos-compare --seed {seed} --first {number} --calls 1 --pairs 1"
                );
                let text = match found.program {
                    Err(Stop::Late(_)) => not_shrunk(&again, case, &found),
                    _ => shrunk(&again, program, case)?,
                };
                return Ok(Outcome::Differs(text));
            }
            all.join(&counts);
            let calls = counts.calls();
            told(self.calls.fetch_add(calls, Ordering::Relaxed) + calls);
        }
        Ok(Outcome::Same(Box::new(all)))
    }
}

/// A case to which no reply came in time, up to that request. It is not
/// shrunk: each attempt would wait as long. `again` tells how it is found again.
fn not_shrunk(again: &str, mut case: Case, found: &Difference) -> String {
    case.requests.truncate(found.request + 1);
    let report = report(&case, found);
    format!("# a difference, not shrunk\n{again}\n{report}")
}

/// The least case that shows a difference, as a log in words.
fn shrunk(again: &str, program: &mut dyn Answerer, case: Case) -> io::Result<String> {
    let before = counted(case.requests.len(), "record");
    let mut failed = None;
    let case = shrink(case, |case| {
        let found = Difference::between(program, case).unwrap_or_else(|error| {
            failed = Some(error);
            None
        });
        found.map(|found| found.request)
    });
    if let Some(error) = failed {
        return Err(error);
    }
    let Some(found) = Difference::between(program, &case)? else {
        return Ok(format!(
            "# a difference that does not come again\n{again}\n"
        ));
    };
    let (records, report) = (case.requests.len(), report(&case, &found));
    let title = format!("# a difference, shrunk from {before} to {records}");
    Ok(format!("{title}\n{again}\n{report}"))
}

#[cfg(test)]
mod tests {
    use super::*;
    use crate::machine;
    use crate::program::Replies;
    use crate::protocol::Reply;
    use std::time::Duration;

    #[test]
    fn the_kernel_against_itself() {
        let run = Run {
            seed: 1,
            first: 0,
            until: Until::Cases(90),
            pairs: 2,
        };
        let told = AtomicU64::new(0);
        let outcome = run
            .compare(
                || machine::replies,
                |calls| told.store(calls, Ordering::Relaxed),
            )
            .unwrap();
        let Outcome::Same(counts) = outcome else {
            panic!("the kernel differs from itself");
        };
        assert!(counts.calls() > 1_000);
        assert!(told.load(Ordering::Relaxed) > 1_000);
    }

    #[test]
    fn a_side_that_ends_early_is_found() {
        let run = Run {
            seed: 1,
            first: 0,
            until: Until::Calls(100_000),
            pairs: 1,
        };
        let short = |case: &Case| -> Vec<Reply> {
            let mut replies = machine::replies(case);
            let links = case
                .requests
                .iter()
                .position(|call| call.kind() == Some(21));
            replies.truncate(links.unwrap_or(replies.len()));
            replies
        };
        let outcome = run.compare(|| short, |_| {}).unwrap();
        let Outcome::Differs(text) = outcome else {
            panic!("no difference was found");
        };
        assert!(text.contains(" to 1\n"), "{text}");
        assert!(
            text.contains("\nlink 0 \"A\" # 1, output of 0: 1 0 0\n"),
            "{text}"
        );
        assert!(text.contains("ended without a reply"), "{text}");
    }

    /// A side that replies to nine requests of a case.
    struct Late;

    impl Answerer for Late {
        fn replies(&mut self, case: &Case) -> io::Result<Replies> {
            let mut given = machine::replies(case);
            given.truncate(9);
            let stop = Stop::Late(Duration::from_secs(7));
            Ok(Replies { given, stop })
        }
    }

    #[test]
    fn a_side_that_is_late_is_found_and_not_shrunk() {
        let run = Run::fixed_set();
        let Ok(Outcome::Differs(text)) = run.compare(|| Late, |_| {}) else {
            panic!("no difference was found");
        };
        assert!(text.contains("# a difference, not shrunk\n"), "{text}");
        assert!(text.contains("# differs: no reply in 7 s\n"), "{text}");
        assert!(text.contains(" # 10, output of "), "{text}");
        assert!(!text.contains(" # 11, output of "), "{text}");
    }
}
