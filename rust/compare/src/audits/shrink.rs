//! Fewer records in a log on which the verdicts differ.

use super::logs::{Log, Made};
use crate::shrink::leave_out;
use std::time::{Duration, Instant};

/// How long is tried: each attempt may run the proved program anew.
const LONGEST: Duration = Duration::from_secs(10);

/// Leaves out pairs of records, and what was put into them, while the verdicts
/// differ. The replies of those that are left are made anew, and so is the
/// verdict expected.
pub fn shrink(log: Log, differs: impl FnMut(&Made) -> bool) -> Log {
    let mut shrinker = Shrinker {
        log,
        differs,
        end: Instant::now() + LONGEST,
    };
    loop {
        let before = shrinker.log.steps.len();
        let length = |shrinker: &Shrinker<_>| shrinker.log.steps.len();
        leave_out(before, &mut shrinker, length, |shrinker, run| {
            let mut log = shrinker.log.clone();
            log.steps.drain(run);
            shrinker.accepts(log);
        });
        if shrinker.log.steps.len() == before {
            break;
        }
    }
    let quiet = Log {
        noise: None,
        ..shrinker.log.clone()
    };
    shrinker.accepts(quiet);
    shrinker.log
}

struct Shrinker<Differs> {
    log: Log,
    differs: Differs,
    /// After this no log is accepted, so that all comes to an end.
    end: Instant,
}

impl<Differs: FnMut(&Made) -> bool> Shrinker<Differs> {
    /// Goes on with a log if it can be made and the verdicts on it differ.
    fn accepts(&mut self, log: Log) {
        let in_time = Instant::now() < self.end;
        if in_time && log.made().is_some_and(|made| (self.differs)(&made)) {
            self.log = log;
        }
    }
}

#[cfg(test)]
mod tests {
    use super::*;
    use crate::audits::events::all_kinds;
    use crate::audits::faults::faults;
    use crate::audits::logs::Put;

    #[test]
    fn what_a_fault_needs_is_left() {
        let last = all_kinds().len() - 1;
        let fault = faults().find(|fault| fault.word == "bytes").unwrap();
        let log = Log::right(all_kinds()).with(last, Put::Fault(fault));
        let log = shrink(log, |made| made.expected().ends_with(" bytes"));
        // the start, an open of some bytes, the read
        let kinds: Vec<u16> = log.steps.iter().map(|step| step.event.kind).collect();
        assert_eq!(kinds, [256, 1, 6]);
    }

    #[test]
    fn what_stands_behind_goes_first() {
        let fault = faults().find(|fault| fault.word == "a").unwrap();
        let mut log = Log::right(all_kinds()).with(0, Put::Fault(fault));
        log.noise = Some(3);
        let log = shrink(log, |made| made.expected() == "1 a");
        assert_eq!((log.steps.len(), log.noise), (1, None));
    }
}
