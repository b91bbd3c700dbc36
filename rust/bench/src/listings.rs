//! (f): the listing programs, each over the same log.

use crate::programs::{text, times, Room};
use exos_bench::mixed;

/// A table of both programs, the proved one first: the bytes of text a second, the start of the program left out.
pub fn print(programs: &[String; 2], records: usize, rounds: usize) {
    let room = Room::new();
    let log = room.log("mixed.log", &mixed(records, 4).bytes);
    let none = room.log("none.log", &[]);

    let texts = programs.each_ref().map(|program| text(program, &log));
    assert!(texts[0] == texts[1], "the same text");
    let size = texts[0].len();
    let works = programs
        .each_ref()
        .map(|program| (program.as_str(), &*log, &*none));
    let speeds: Vec<f64> = times(rounds, &works)
        .iter()
        .map(|time| size as f64 * 1e3 / time)
        .collect();

    let (proved, rust) = (speeds[0], speeds[1]);
    println!("## (f) The listing\n");
    println!("| the listing of {records} records, {size} bytes | million bytes a second | / Rust listing |");
    println!("|---|---:|---:|");
    println!(
        "| proved program `exos_list` | {proved:.1} | {:.2} |",
        proved / rust
    );
    println!("| Rust program `exos-listing` | {rust:.1} | 1.00 |\n");
}
