//! Jilakkor, a physical-frame store: it gives out, splits, takes back and reclaims
//! frames of 4 KiB, 2 MiB and 1 GiB. Every function behind these calls is proved
//! to meet its contract. The names are those of the Twizzler kernel's `frame.rs`
//! and `tracker.rs`; `docs/INTEGRATION.md` says how the store takes their place.
//!
//! All state is lent: nothing is allocated, nothing panics, and there is no lock.
//!
//! ```no_run
//! use core::alloc::Layout;
//! use jilakkor::{
//!     Error, FrameAllocFlags, FrameStore, MemoryRegion, MemoryRegionKind, PhysAddr,
//!     FRAME_SIZE, RECORD_BYTES, WORDS,
//! };
//!
//! fn start() -> Result<(), Error> {
//!     let map = [MemoryRegion {
//!         start: PhysAddr::new(0x100000),
//!         length: 16 * FRAME_SIZE,
//!         kind: MemoryRegionKind::UsableRam,
//!     }];
//!     let (mut words, mut queue) = ([0; WORDS], [0; 64]);
//!     let (mut records, mut memory) = ([0; 16 * RECORD_BYTES], [0; 16 * FRAME_SIZE]);
//!     let mut store =
//!         FrameStore::boot(&mut words, &mut records, &mut memory, &mut queue, &map)?;
//!
//!     let page = Layout::new::<[u8; FRAME_SIZE]>();
//!     let flags = FrameAllocFlags::ZEROED | FrameAllocFlags::KERNEL;
//!     let frame = store.try_alloc_frame(flags, page)?;
//!     store.write(frame.address, 0, b"a page table")?;
//!     store.free_frame(frame.address)?;
//!     assert_eq!(store.free_frame(frame.address), Err(Error::NotHeld));
//!     Ok(())
//! }
//! ```

#![no_std]
#![deny(missing_docs, unsafe_code)]

#[cfg(not(target_pointer_width = "64"))]
compile_error!("the store's counts are 64 bits wide");

mod counted;
mod error;
#[allow(missing_docs, unsafe_code)]
mod ffi;
mod layout;
mod store;
mod types;

pub use counted::{CountedStore, Op};
pub use error::Error;
pub use ffi::Counters;
pub use layout::{FRAME_SIZE, LEVEL_SIZES, MAX_REGIONS, RECORD_BYTES, STATS_BYTES, VERSION, WORDS};
pub use store::FrameStore;
pub use types::{Frame, FrameAllocFlags, MemoryRegion, MemoryRegionKind, Pass, PhysAddr};
