//! What the programs over standard input and output have in common.

use std::env;
use std::ffi::OsString;
use std::io::{self, BufReader, BufWriter, ErrorKind, StdinLock, StdoutLock, Write};
use std::process::ExitCode;

/// Runs a program that takes no arguments but `--help`: `work` reads standard
/// input and writes to standard output.
pub fn run(
    name: &str,
    usage: &str,
    work: impl FnOnce(BufReader<StdinLock>, &mut BufWriter<StdoutLock>) -> io::Result<()>,
) -> ExitCode {
    let arguments: Vec<OsString> = env::args_os().skip(1).collect();
    let (done, status) = match &arguments[..] {
        [] => (filter(work), 0),
        [one] if one == "--help" || one == "-h" => (io::stdout().write_all(usage.as_bytes()), 0),
        _ => (io::stderr().write_all(usage.as_bytes()), 2),
    };
    match done {
        Err(error) if error.kind() != ErrorKind::BrokenPipe => {
            eprintln!("{name}: {error}");
            ExitCode::FAILURE
        }
        _ => ExitCode::from(status),
    }
}

fn filter(
    work: impl FnOnce(BufReader<StdinLock>, &mut BufWriter<StdoutLock>) -> io::Result<()>,
) -> io::Result<()> {
    let mut output = BufWriter::new(io::stdout().lock());
    work(BufReader::new(io::stdin().lock()), &mut output)?;
    output.flush()
}
