//! (a): single calls that move many bytes, against the same bytes moved by the standard library.

use crate::measure::{cost, Cost};
use exos_bench::Log;
use std::hint::black_box;

/// A row of the table: the call, and its cost.
fn print_row(call: &str, cost: &Cost) {
    let [held, tested, rust] = cost.sides;
    let plain = cost.plain;
    println!(
        "| {call} | {held:.0} ns | {tested:.0} ns | {rust:.0} ns | {plain:.0} ns | {:.2} | {:.2} | {:.2} |",
        held / rust,
        tested / rust,
        held / plain
    );
}

/// A table of the calls.
pub fn print(rounds: usize) {
    println!("## (a) Moves of many bytes\n");
    println!("| call | held | tested | Rust kernel | plain move | held / Rust | tested / Rust | held / plain |");
    println!("|---|---:|---:|---:|---:|---:|---:|---:|");
    let bytes = &mut vec![1u8; 32 * 16_384];
    print_row("close of 16 bytes before 60,000", &close(rounds, bytes));
    print_row("open of 60,000", &open(rounds, bytes));
    print_row(
        "open or close of 60,000, by turns",
        &open_and_close(rounds, bytes),
    );
    print_row("link of 1 under 60,000", &link(rounds, bytes, 1, 12));
    print_row("link of 2000 under 60,000", &link(rounds, bytes, 2_000, 7));
    print_row("start of 32 segments", &start(rounds, bytes));
    println!();
}

/// A line before a record of 60,000 bytes: `count` records of 16 bytes, then that one.
fn line(r: u16, segments: u8, count: u8) -> Log {
    let mut log = Log::started(r, segments);
    (0..count).for_each(|channel| log.open(channel, 0, b"VIDEO:"));
    log.open(200, 60_000 - 16, b"VIDEO:");
    log
}

fn close(rounds: usize, bytes: &mut [u8]) -> Cost {
    let before = line(16_128, 8, 30);
    let mut after = line(16_128, 8, 30);
    (0..30).rev().for_each(|channel| after.close(channel));
    cost(rounds, 8, [&before, &after], || {
        black_box(&mut *bytes).copy_within(0..60_000, 16)
    })
}

/// Ten starts of 32 segments, so many channels of 60,000 bytes opened after each.
fn started_again(opens: u8) -> Log {
    let mut log = Log::default();
    for _ in 0..10 {
        log.start(16_128, 32);
        (0..opens).for_each(|channel| log.open(channel, 60_000, b"VIDEO:"));
    }
    log
}

fn open(rounds: usize, bytes: &mut [u8]) -> Cost {
    cost(rounds, 32, [&started_again(0), &started_again(7)], || {
        black_box(&mut *bytes)[..60_016].fill(0)
    })
}

fn open_and_close(rounds: usize, bytes: &mut [u8]) -> Cost {
    let before = Log::started(16_128, 8);
    let mut after = Log::started(16_128, 8);
    for _ in 0..30 {
        after.open(1, 60_000, b"VIDEO:");
        after.close(1);
    }
    cost(rounds, 8, [&before, &after], || {
        black_box(&mut *bytes)[..60_016].fill(0)
    })
}

fn link(rounds: usize, bytes: &mut [u8], m: u16, links: u8) -> Cost {
    let before = line(16_128, 8, 0);
    let mut after = line(16_128, 8, 0);
    (0..links).for_each(|count| after.link(m, &[b'A' + count]));
    let from = usize::from(m);
    cost(rounds, 8, [&before, &after], || {
        black_box(&mut *bytes).copy_within(from..60_000 + from, 0)
    })
}

fn start(rounds: usize, bytes: &mut [u8]) -> Cost {
    let before = Log::started(16_128, 32);
    let mut after = Log::started(16_128, 32);
    (0..20).for_each(|_| after.start(16_128, 32));
    cost(rounds, 32, [&before, &after], || {
        black_box(&mut *bytes).fill(0)
    })
}
