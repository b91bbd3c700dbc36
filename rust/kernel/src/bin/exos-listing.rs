//! The listing program over standard input and output.

use exos_kernel::{listing, run};
use std::process::ExitCode;

const USAGE: &str = "\
usage: exos-listing <LOG
The listing of a log of event records by the independent Rust kernel, of which
nothing is proved: a line a record.
";

fn main() -> ExitCode {
    run("exos-listing", USAGE, |log, output| listing(log, output))
}
