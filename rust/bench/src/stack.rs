//! (e): the stack that a log's calls use.

use crate::measure::Side;
use exos_bench::{mixed, modules};

/// A table of the sides.
pub fn print() {
    let mut log = mixed(2_000, 8);
    log.append(&modules(1, 1_024));
    let [held, tested, rust] = Side::all(8).map(|mut side| {
        stack_of(|| {
            side.replay(&log);
        })
    });
    println!("## (e) Stack\n");
    println!("| stack used by a log's calls | bytes |");
    println!("|---|---:|");
    println!("| proved step, tables held | {held} |");
    println!("| proved public calls, tables tested | {tested} |");
    println!("| Rust kernel | {rust} |\n");
}

/// How far below a caller's frame the painted part of the stack reaches.
const PAINTED: usize = 256 * 1024;
/// What is left alone just below the frame.
const SPARED: usize = 512;
/// A byte that a call seldom leaves.
const PAINT: u8 = 0xA5;

/// The bytes of stack that a call writes to, by paint below this frame that the call wears off.
#[inline(never)]
fn stack_of(mut run: impl FnMut()) -> usize {
    let mark = 0u8;
    let top = std::hint::black_box(&mark) as *const u8 as usize - SPARED;
    let bottom = top - PAINTED;
    // SAFETY: the stack of the main thread reaches 8 MiB down, and nothing below this frame is in use.
    for at in bottom..top {
        unsafe { (at as *mut u8).write_volatile(PAINT) };
    }
    run();
    // SAFETY: the same bytes, all of them written above.
    let worn = (bottom..top).find(|at| unsafe { (*at as *const u8).read_volatile() } != PAINT);
    worn.map_or(0, |at| top + SPARED - at)
}
