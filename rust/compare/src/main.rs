//! A long comparison: `exos-compare --calls 10000000 --seed 1`, or that of the
//! auditors: `exos-compare --audits`.

use exos_compare::audits::{self, find_auditor, Audits};
use exos_compare::counts::Counts;
use exos_compare::program::{find_program, Program};
use exos_compare::run::{Outcome, Run, Until};
use exos_compare::settings::{asked, Asked, USAGE};
use std::env;
use std::io;
use std::process::ExitCode;
use std::sync::Mutex;
use std::time::{Duration, Instant};

/// How often the progress is shown.
const OFTEN: Duration = Duration::from_secs(10);

fn main() -> ExitCode {
    match asked(env::args().skip(1)) {
        Ok(Asked::Help) => {
            println!("{USAGE}");
            ExitCode::SUCCESS
        }
        Ok(Asked::Run(run, table)) => ended(compare(&run, table)),
        Ok(Asked::Audits(run, table)) => ended(audit(&run, table)),
        Err(wrong) => failed(&format!("{wrong} (--help says how it is called)")),
    }
}

fn ended(end: io::Result<ExitCode>) -> ExitCode {
    end.unwrap_or_else(|error| failed(&error.to_string()))
}

fn failed(why: &str) -> ExitCode {
    eprintln!("exos-compare: {why}");
    ExitCode::from(2)
}

fn compare(run: &Run, table: bool) -> io::Result<ExitCode> {
    let path = find_program()?;
    let progress = Progress::new(run.until);
    let outcome = run.compare(|| Program::at(&path), |done| progress.told(done))?;
    Ok(match outcome {
        Outcome::Same(counts) => {
            if table {
                print_table(&counts);
            }
            print_each("NOT ALLOWED by 01 and 02", &counts.forbidden());
            let (calls, seconds) = (counts.calls(), progress.began.elapsed().as_secs_f64());
            let rate = calls as f64 / seconds;
            println!("{calls} calls, no difference, {seconds:.0} s, {rate:.0} a second");
            ExitCode::from(u8::from(!counts.forbidden().is_empty()))
        }
        Outcome::Differs(text) => {
            print!("{text}");
            ExitCode::from(1)
        }
    })
}

fn audit(run: &Audits, table: bool) -> io::Result<ExitCode> {
    let proved = find_auditor()?;
    let began = Instant::now();
    Ok(match run.compare(&proved)? {
        audits::Outcome::Same(met) => {
            if table {
                print!("{met}");
                print_each("not met", &met.missing());
            }
            let (logs, seconds) = (met.logs(), began.elapsed().as_secs_f64());
            println!("{logs} logs, no difference, {seconds:.0} s");
            ExitCode::SUCCESS
        }
        audits::Outcome::Differs(text) => {
            print!("{text}");
            ExitCode::from(1)
        }
    })
}

fn print_table(counts: &Counts) {
    print!("{counts}");
    println!("edges met");
    counts
        .edges()
        .for_each(|(edge, count)| println!("  {count:>10}  {edge}"));
    print_each("not met", &counts.missing());
}

fn print_each(what: &str, pairs: &[String]) {
    for pair in pairs {
        println!("{what}: {pair}");
    }
}

/// Shows now and then how far the run is.
struct Progress {
    until: Until,
    began: Instant,
    shown: Mutex<Instant>,
}

impl Progress {
    fn new(until: Until) -> Progress {
        let now = Instant::now();
        Progress {
            until,
            began: now,
            shown: Mutex::new(now),
        }
    }

    fn told(&self, done: u64) {
        let Ok(mut shown) = self.shown.try_lock() else {
            return;
        };
        if shown.elapsed() < OFTEN {
            return;
        }
        *shown = Instant::now();
        let rate = done as f64 / self.began.elapsed().as_secs_f64();
        let left = match self.until {
            Until::Calls(calls) => {
                let left = calls.saturating_sub(done) as f64 / rate;
                format!(" of {calls} calls, {rate:.0} a second, {left:.0} s left")
            }
            Until::Cases(_) => format!(" calls, {rate:.0} a second"),
        };
        eprintln!("{done}{left}");
    }
}
