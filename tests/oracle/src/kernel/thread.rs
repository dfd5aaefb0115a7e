//! Threads. One record stands for whichever thread runs, since nothing that the
//! two files do with it shows; a new kernel thread becomes the coroutine.

use alloc::sync::Arc;
use std::sync::OnceLock;

use intrusive_collections::linked_list::AtomicLink;
use twizzler_abi::thread::ExecutionState;

#[derive(Default)]
pub struct Thread {
    pub memwait_link: AtomicLink,
}

pub type ThreadRef = Arc<Thread>;

pub struct CriticalGuard;

pub fn current_thread_ref() -> Option<&'static ThreadRef> {
    static CURRENT: OnceLock<ThreadRef> = OnceLock::new();
    Some(CURRENT.get_or_init(ThreadRef::default))
}

impl Thread {
    pub fn enter_critical(&self) -> CriticalGuard {
        CriticalGuard
    }

    pub fn donate_priority(&self, _priority: priority::Priority) {}

    pub fn set_state(&self, _state: ExecutionState) {}

    pub fn set_sync_sleep_done(&self) {}

    pub fn reset_sync_sleep_done(&self) {}
}

pub mod priority {
    pub struct Priority;

    impl Priority {
        pub const BACKGROUND: Self = Self;
        pub const REALTIME: Self = Self;
    }
}

pub mod entry {
    use super::{priority::Priority, ThreadRef};

    pub fn start_new_kernel(_priority: Priority, start: extern "C" fn(), _arg: usize) -> ThreadRef {
        // A paused thread would keep the queue's own lock, so that there is none then.
        if !cfg!(feature = "lock") {
            crate::coroutine::spawn(start);
        }
        ThreadRef::default()
    }
}
