//! The processor's time of this program and of the programs that it ran, in nanoseconds. Other work on the machine is not
//! counted.

#[repr(C)]
struct Seconds {
    whole: i64,
    /// Of a billion for a clock, of a million for a usage.
    parts: i64,
}

impl Seconds {
    const ZERO: Seconds = Seconds { whole: 0, parts: 0 };
}

#[repr(C)]
struct Usage {
    user: Seconds,
    system: Seconds,
    rest: [i64; 14],
}

extern "C" {
    fn clock_gettime(clock: i32, time: *mut Seconds) -> i32;
    fn getrusage(whose: i32, usage: *mut Usage) -> i32;
}

const THIS_PROGRAM: i32 = 2;
const PROGRAMS_RUN: i32 = -1;

/// The time of this program.
pub fn own() -> f64 {
    let mut time = Seconds::ZERO;
    // SAFETY: the struct is Linux's `timespec` of a machine with 64 bits.
    assert_eq!(unsafe { clock_gettime(THIS_PROGRAM, &mut time) }, 0);
    time.whole as f64 * 1e9 + time.parts as f64
}

/// The time of the programs that it ran and that have ended.
pub fn others() -> f64 {
    let mut usage = Usage {
        user: Seconds::ZERO,
        system: Seconds::ZERO,
        rest: [0; 14],
    };
    // SAFETY: the struct is Linux's `rusage` of a machine with 64 bits.
    assert_eq!(unsafe { getrusage(PROGRAMS_RUN, &mut usage) }, 0);
    let Usage { user, system, .. } = usage;
    (user.whole + system.whole) as f64 * 1e9 + (user.parts + system.parts) as f64 * 1e3
}
