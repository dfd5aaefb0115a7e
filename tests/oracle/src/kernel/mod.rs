//! Stand-ins for the parts of the kernel that frame.rs and tracker.rs import,
//! under the names that their text uses; `memory` holds the two files. One
//! thread runs at a time (see `coroutine`), so nothing here locks or waits. With
//! the feature `lock` the kernel's own spinlock.rs and once.rs stand here.

#[macro_use]
pub mod console;

pub mod arch;
pub mod condvar;
#[cfg(feature = "lock")]
pub mod interrupt;
pub mod memory;
#[cfg(not(feature = "lock"))]
pub mod once;
pub mod processor;
#[cfg(not(feature = "lock"))]
pub mod spinlock;
pub mod syscall;
pub mod thread;

#[cfg(feature = "lock")]
include!(concat!(env!("OUT_DIR"), "/locks.rs"));
