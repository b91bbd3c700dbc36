//! The gate's fixed set: some hundred thousand calls, and as many requests about
//! modules that are written, through the proved program and the independent
//! kernel.

use exos_compare::program::{find_program, Program};
use exos_compare::run::{Outcome, Run};
use std::io::{self, Write};
use std::time::Instant;

#[test]
fn the_proved_program_and_the_kernel_agree() {
    let path = find_program().unwrap_or_else(|error| panic!("{error}"));
    let began = Instant::now();
    match Run::fixed_set().compare(|| Program::at(&path), |_| {}) {
        Ok(Outcome::Same(counts)) => {
            let (calls, edges, took) = (counts.calls(), counts.edges().count(), began.elapsed());
            // not println, which cargo shows of failed tests alone
            let text = format!("\n{counts}{calls} calls, {edges} edges, {took:.0?}\n");
            io::stdout().write_all(text.as_bytes()).unwrap();
            assert!(counts.calls() > 200_000);
            assert_eq!(counts.missing(), [""; 0], "pairs that are allowed");
            assert_eq!(counts.forbidden(), [""; 0], "pairs that are not allowed");
            assert_eq!(counts.unmet(), [""; 0], "edges");
        }
        Ok(Outcome::Differs(text)) => panic!("{text}"),
        Err(error) => panic!("{}: {error}", path.display()),
    }
}
