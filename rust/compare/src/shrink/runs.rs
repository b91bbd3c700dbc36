//! Leaves out runs of a list: long ones first, single rows in the end.

use std::ops::Range;

/// Tries to leave out runs of a list that something has and that is `length`
/// long, `longest` rows at first.
pub fn leave_out<T>(
    longest: usize,
    of: &mut T,
    length: impl Fn(&T) -> usize,
    mut leave_out: impl FnMut(&mut T, Range<usize>),
) {
    let mut run = longest;
    while run > 0 {
        leave_out_each(run, of, &length, &mut leave_out);
        run /= 2;
    }
}

/// Tries each run of so many rows, the last first.
fn leave_out_each<T>(
    run: usize,
    of: &mut T,
    length: impl Fn(&T) -> usize,
    mut leave_out: impl FnMut(&mut T, Range<usize>),
) {
    let mut end = length(of);
    while end > 0 {
        let start = end.saturating_sub(run);
        leave_out(of, start..end);
        end = start.min(length(of));
    }
}
