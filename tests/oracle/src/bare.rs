//! For measurements, in this process and with no call tested for common ground:
//! the allocator of one region by itself, outside of the kernel's statics, which
//! can be laid out again over the same memory as often as one likes; and the
//! kernel's own calls, after one boot.

use std::{alloc::Layout, ops::Range};

pub use crate::memory::frame::BareRegion;
use crate::memory::{
    frame,
    tracker::{self, FrameAllocFlags},
    MemoryRegion, MemoryRegionKind, PhysAddr,
};

/// Sets up the physical memory of a range of addresses, once for each process.
pub fn set_up(range: Range<u64>) {
    crate::physical::set_up(&[range]);
}

/// Boots the kernel on one usable entry, once for each process.
pub fn boot(start: u64, length: usize) {
    let start = PhysAddr::new(start).unwrap();
    frame::init(&[MemoryRegion { start, length, kind: MemoryRegionKind::UsableRam }]);
    tracker::start_reclaim_thread();
}

/// The address of a frame of so many bytes, granted with no flags.
pub fn alloc(size: usize) -> Option<u64> {
    let layout = Layout::from_size_align(size, size).ok()?;
    let frame = tracker::try_alloc_frame(FrameAllocFlags::empty(), layout)?;
    Some(frame.start_address().raw())
}

/// Frees the frame at an address, which must be held; `None` where none is.
pub fn free(address: u64) -> Option<()> {
    tracker::free_frame(frame::get_frame(PhysAddr::new(address).ok()?)?);
    Some(())
}

/// The page of a managed address, and the bytes of its frame.
pub fn find(address: u64) -> Option<(u64, usize)> {
    let frame = frame::get_frame(PhysAddr::new(address).ok()?)?;
    Some((frame.start_address().raw(), frame.size()))
}
