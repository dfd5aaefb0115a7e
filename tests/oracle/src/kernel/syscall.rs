//! Sleeping and waking. No call on common ground may wait, so nobody sleeps and
//! there is nobody to wake.

pub mod sync {
    use crate::thread::{CriticalGuard, ThreadRef};

    pub fn add_all_to_requeue(threads: impl IntoIterator<Item = ThreadRef>) {
        assert!(threads.into_iter().next().is_none(), "a thread waits");
    }

    pub fn requeue_all() {}

    pub fn finish_blocking(_guard: CriticalGuard) {
        panic!("a thread would wait");
    }
}
