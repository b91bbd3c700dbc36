//! (d): the cost of a small read by open channels, of a boundary by segments, of a read by bytes moved, and of load module
//! by bytes of its stream.

use crate::measure::cost;
use crate::plot::Curve;
use exos_bench::{modules, Log};

/// How many calls a cost is taken from.
const CALLS: usize = 2_000;
/// How many modules a cost is taken from.
const MODULES: usize = 200;

/// The curves of all four.
pub fn curves(rounds: usize) -> Vec<Curve> {
    vec![
        Curve {
            name: "a read of 2 bytes, by open channels",
            unit: "channels",
            points: [1, 2, 4, 8, 16, 32]
                .map(|count| by_channels(rounds, count))
                .to_vec(),
        },
        Curve {
            name: "a boundary, by segments",
            unit: "segments",
            points: [2, 4, 8, 16, 32]
                .map(|count| by_segments(rounds, count))
                .to_vec(),
        },
        Curve {
            name: "a read, by bytes",
            unit: "bytes",
            points: [16, 64, 256, 1_024, 4_096]
                .map(|count| by_bytes(rounds, count))
                .to_vec(),
        },
        Curve {
            name: "load module, by bytes of stream",
            unit: "bytes",
            points: [16, 64, 256, 1_024, 4_090]
                .map(|count| by_stream(rounds, count))
                .to_vec(),
        },
    ]
}

fn by_channels(rounds: usize, count: u8) -> (usize, [f64; 3]) {
    let opened = || {
        let mut log = Log::started(16_128, 8);
        (0..count).for_each(|channel| log.open(channel, 2, b"VIDEO:"));
        log
    };
    let mut after = opened();
    (0..CALLS).for_each(|_| after.read(count - 1, 0, 2));
    let costs = cost(rounds, 8, [&opened(), &after], || ());
    (count.into(), costs.sides)
}

fn by_segments(rounds: usize, count: u8) -> (usize, [f64; 3]) {
    let before = Log::started(16_128, count);
    let mut after = Log::started(16_128, count);
    (0..CALLS).for_each(|_| after.record(22, &[]));
    let costs = cost(rounds, count.into(), [&before, &after], || ());
    (count.into(), costs.sides)
}

fn by_bytes(rounds: usize, count: u16) -> (usize, [f64; 3]) {
    let opened = || {
        let mut log = Log::started(16_128, 8);
        log.open(1, 4_096, b"VIDEO:");
        log
    };
    let mut after = opened();
    (0..CALLS).for_each(|_| after.read(1, 0, count));
    let costs = cost(rounds, 8, [&opened(), &after], || ());
    (count.into(), costs.sides)
}

fn by_stream(rounds: usize, count: usize) -> (usize, [f64; 3]) {
    let logs = [modules(0, count), modules(MODULES, count)];
    let costs = cost(rounds, 8, logs.each_ref(), || ());
    (count, costs.sides)
}
