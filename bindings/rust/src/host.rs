//! What the crate uses of std where threads meet: locks, atomics, parks and the clock.
//!
//! With `--cfg vahepito_explore` the search of `tests/explore` has its own in their place, and decides which thread
//! makes the next step. The paths are those of std.
#[cfg(vahepito_explore)]
pub use crate::explore::{hint, number as thread_number, sync, thread, time};
#[cfg(not(vahepito_explore))]
pub use std::{hint, sync, thread, time};

/// A number for this thread, which asks once: the threads get one after another.
#[cfg(not(vahepito_explore))]
pub fn thread_number() -> usize {
    static NEXT: sync::atomic::AtomicUsize = sync::atomic::AtomicUsize::new(0);
    NEXT.fetch_add(1, sync::atomic::Ordering::Relaxed)
}
