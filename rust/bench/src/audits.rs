//! (g): the auditors over a maker's log, beside the listings of its events.

use crate::programs::{text, times, Room};
use exos_bench::{maker, mixed, Log};

/// A row of the table: a program, the bytes that are counted, and its time in nanoseconds.
fn print_row(program: &str, bytes: usize, time: f64) {
    let (seconds, speed) = (time / 1e9, bytes as f64 * 1e3 / time);
    println!("| {program} | {bytes} | {seconds:.2} | {speed:.1} |");
}

/// A table of both auditors and both listings, the proved ones first, the start of the program left out.
pub fn print(auditors: &[String; 2], listings: &[String; 2], records: usize, rounds: usize) {
    let room = Room::new();
    let (events, least) = (mixed(records, 4), Log::started(11_074, 4));
    let made = maker(&events);
    let logs = [
        room.log("maker.log", &made.bytes),
        room.log("maker-start.log", &maker(&least).bytes),
    ];
    let listed = [
        room.log("events.log", &events.bytes),
        room.log("start.log", &least.bytes),
    ];

    let accepts = |auditor: &String| text(auditor, &logs[0]) == b"ok\n";
    assert!(auditors.iter().all(accepts), "an accepted log");
    let printed = text(&listings[0], &listed[0]).len();
    let works = [
        (auditors[0].as_str(), &*logs[0], &*logs[1]),
        (auditors[1].as_str(), &*logs[0], &*logs[1]),
        (listings[0].as_str(), &*listed[0], &*listed[1]),
        (listings[1].as_str(), &*listed[0], &*listed[1]),
    ];
    let times = times(rounds, &works);

    let (read, of_events) = (made.bytes.len(), events.bytes.len());
    println!("## (g) The audit\n");
    println!("| a maker's log of {records} events | bytes | seconds | million bytes a second |");
    println!("|---|---:|---:|---:|");
    print_row(
        "proved program `exos_audit`, events and replies",
        read,
        times[0],
    );
    print_row("Rust program `exos-auditor`, the same", read, times[1]);
    print_row(
        "proved program `exos_list`, the events",
        of_events,
        times[2],
    );
    print_row("proved program `exos_list`, its text", printed, times[2]);
    print_row(
        "Rust program `exos-listing`, the events",
        of_events,
        times[3],
    );
    print_row("Rust program `exos-listing`, its text", printed, times[3]);
    println!(
        "\nBytes a second of the proved audit: {:.2} times the Rust auditor's; {:.2} times the proved listing's by the events \
         that it reads, {:.2} times by the text that it prints.\n",
        times[1] / times[0],
        read as f64 / of_events as f64 * times[2] / times[0],
        read as f64 / printed as f64 * times[2] / times[0],
    );
}
