//! Calls that may panic: a kernel's panic is a difference and is told as one, so
//! it writes no message of its own.

use exos_kernel::{good, Tables};
use std::cell::Cell;
use std::panic::{self, AssertUnwindSafe};
use std::sync::Once;

thread_local! {
    /// Whether this thread is within [`quietly`].
    static QUIET: Cell<bool> = const { Cell::new(false) };
}

static HOOK: Once = Once::new();

/// What a function gives; none if it panicked. Panics elsewhere are told as
/// they were before.
pub fn quietly<T>(function: impl FnOnce() -> T) -> Option<T> {
    HOOK.call_once(set_hook);
    QUIET.set(true);
    let given = panic::catch_unwind(AssertUnwindSafe(function));
    QUIET.set(false);
    given.ok()
}

/// Whether the kernel takes tables as good; false where it panics.
pub fn is_good(tables: &Tables) -> bool {
    quietly(|| good(tables)).unwrap_or(false)
}

fn set_hook() {
    let usual = panic::take_hook();
    panic::set_hook(Box::new(move |info| {
        if !QUIET.get() {
            usual(info);
        }
    }));
}

#[cfg(test)]
mod tests {
    use super::*;

    #[test]
    fn a_panic_is_no_value() {
        assert_eq!(quietly(|| 7), Some(7));
        assert_eq!(quietly(|| panic!("not told")), None::<u8>);
        assert!(!QUIET.get());
    }
}
