//! The medians of work that takes turns, and what a log costs on each side.

use crate::{clock, proved};
use exos_bench::{run, Log};
use exos_kernel::Reply;
use std::hint::black_box;

/// How long some work takes, in nanoseconds of a clock.
fn timed(clock: fn() -> f64, work: impl FnOnce()) -> f64 {
    let began = clock();
    work();
    clock() - began
}

fn median(mut times: Vec<f64>) -> f64 {
    times.sort_by(f64::total_cmp);
    times[times.len() / 2]
}

/// The medians of many runs of each work in turn.
pub fn medians(rounds: usize, clock: fn() -> f64, works: &[Box<dyn Fn() + '_>]) -> Vec<f64> {
    let mut times = vec![Vec::new(); works.len()];
    for _ in 0..rounds {
        for (work, times) in works.iter().zip(&mut times) {
            times.push(timed(clock, work));
        }
    }
    times.into_iter().map(median).collect()
}

/// Replays a log over RAM and output, and gives the last answer.
type Kernel = fn(&mut [u8], &mut [u8], &[u8]) -> Reply;

/// A kernel with RAM and output of its own, so that none finds another's bytes in its cache.
pub struct Side {
    kernel: Kernel,
    ram: Vec<u8>,
    out: Vec<u8>,
}

impl Side {
    /// The proved step that holds its tables, the public calls that test them, the Rust kernel.
    pub fn all(segments: usize) -> [Side; 3] {
        let rust: Kernel = |ram, out, log| run(ram, out, log).last;
        [proved::held, proved::tested, rust].map(|kernel| Side {
            kernel,
            ram: vec![0; segments * 16_384],
            out: vec![0; 4_096],
        })
    }

    /// All sides, once they have left the same last answer, bytes moved too, and the same RAM of a log.
    fn agreeing(segments: usize, log: &Log) -> [Side; 3] {
        let mut sides = Side::all(segments);
        let last = sides.each_mut().map(|side| side.replay(log));
        assert!(last.iter().all(|reply| *reply == last[0]), "the same reply");
        let [first, others @ ..] = &sides;
        assert!(
            others.iter().all(|side| side.ram == first.ram),
            "the same RAM"
        );
        sides
    }

    /// Replays a log, and gives the last answer.
    pub fn replay(&mut self, log: &Log) -> Reply {
        (self.kernel)(&mut self.ram, &mut self.out, &log.bytes)
    }

    fn time(&mut self, log: &Log) -> f64 {
        timed(clock::own, || {
            black_box(self.replay(log));
        })
    }
}

/// A log's medians on each side.
pub fn log_medians(rounds: usize, segments: usize, log: &Log) -> [f64; 3] {
    let mut sides = Side::agreeing(segments, log);
    let mut times = [(); 3].map(|()| Vec::new());
    for _ in 0..rounds {
        for (side, times) in sides.iter_mut().zip(&mut times) {
            times.push(side.time(log));
        }
    }
    times.map(median)
}

/// What one of so many calls costs.
pub struct Cost {
    /// On each side: a log with the calls less the same log without them.
    pub sides: [f64; 3],
    /// The same number of plain moves.
    pub plain: f64,
}

/// The cost of the calls that the second log has and the first has not. The sides and the plain moves take turns.
pub fn cost(
    rounds: usize,
    segments: usize,
    [without, with]: [&Log; 2],
    mut plain: impl FnMut(),
) -> Cost {
    let calls = with.records - without.records;
    let mut sides = Side::agreeing(segments, with);
    let mut times = [(); 3].map(|()| Vec::new());
    let mut plains = Vec::new();
    for _ in 0..rounds {
        for (side, times) in sides.iter_mut().zip(&mut times) {
            let less = side.time(without);
            times.push(side.time(with) - less);
        }
        plains.push(timed(clock::own, || (0..calls).for_each(|_| plain())));
    }
    let each = |times| median(times) / calls as f64;
    Cost {
        sides: times.map(each),
        plain: each(plains),
    }
}
