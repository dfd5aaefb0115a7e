//! The scheduler. Only the reclaim thread gives up the processor, and that hands
//! control back to the driver.

pub mod sched {
    bitflags::bitflags! {
        #[derive(Copy, Clone, Debug)]
        pub struct SchedFlags: u32 {
            const REINSERT = 1;
            const YIELD = 2;
            const PREEMPT = 4;
        }
    }

    pub fn schedule(_flags: SchedFlags) {
        crate::coroutine::hand_back();
    }
}

/// Tests again and again, as the kernel's lock and Once do until it is their turn.
#[cfg(feature = "lock")]
pub fn spin_wait_until<R>(until: impl Fn() -> Option<R>, mut pause: impl FnMut()) -> R {
    loop {
        if let Some(ready) = until() {
            return ready;
        }
        pause();
    }
}
