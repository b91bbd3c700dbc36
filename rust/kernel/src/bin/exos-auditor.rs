//! The audit of a maker's log over standard input and output.

use exos_kernel::{audit, run};
use std::io::Write;
use std::process::ExitCode;

const USAGE: &str = "\
usage: exos-auditor <LOG
The audit of a maker's log, event records each followed by its reply, by the
independent Rust kernel, of which nothing is proved: `ok`, or the number of the
first record at fault, from 0, and what is wrong with it: `start`, `cut`,
`answer`, `a`, `b` or `bytes`.
";

fn main() -> ExitCode {
    run("exos-auditor", USAGE, |log, output| {
        writeln!(output, "{}", audit(log)?)
    })
}
