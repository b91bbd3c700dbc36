//! Order 11's comparison: makers' logs, right and with faults put in, through the
//! proved program and the independent auditor.

use exos_compare::audits::{find_auditor, Audits, Outcome};
use std::io::{self, Write};
use std::time::Instant;

#[test]
fn the_proved_program_the_auditor_and_what_was_put_in_agree() {
    let proved = find_auditor().unwrap_or_else(|error| panic!("{error}"));
    let began = Instant::now();
    match Audits::fixed_set().compare(&proved) {
        Ok(Outcome::Same(table)) => {
            let (logs, took) = (table.logs(), began.elapsed());
            // not println, which cargo shows of failed tests alone
            let text = format!("\n{table}{logs} logs, {took:.0?}\n");
            io::stdout().write_all(text.as_bytes()).unwrap();
            assert_eq!(table.missing(), [""; 0], "words and places");
        }
        Ok(Outcome::Differs(text)) => panic!("{text}"),
        Err(error) => panic!("{error}"),
    }
}
