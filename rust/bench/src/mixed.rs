//! (b) and (c): a mixed log.

use crate::measure::log_medians;
use exos_bench::mixed;

/// A table of the sides.
pub fn print(records: usize, rounds: usize) {
    let log = mixed(records, 8);
    let [held, tested, rust] = log_medians(rounds, 8, &log).map(|time| time / records as f64);
    println!("## (b), (c) A mixed log\n");
    println!("| a mixed log of {records} records | ns a record | / Rust kernel |");
    println!("|---|---:|---:|");
    println!(
        "| (b) proved step, tables held | {held:.0} | {:.2} |",
        held / rust
    );
    println!(
        "| (c) proved public calls, tables tested | {tested:.0} | {:.2} |",
        tested / rust
    );
    println!("| Rust kernel, tables tested | {rust:.0} | 1.00 |\n");
}
