//! Addresses, frames, the boot map and the options of grants.

use core::{fmt, ops};

/// A physical address, a type apart from counts of bytes and pages. Any number is
/// one: what is not managed is refused by the calls.
#[repr(transparent)]
#[derive(Clone, Copy, Default, PartialEq, Eq, PartialOrd, Ord, Hash)]
pub struct PhysAddr(u64);

impl PhysAddr {
    /// The address of a number.
    pub const fn new(address: u64) -> PhysAddr {
        PhysAddr(address)
    }

    /// Its number.
    pub const fn raw(self) -> u64 {
        self.0
    }
}

impl From<u64> for PhysAddr {
    fn from(address: u64) -> PhysAddr {
        PhysAddr(address)
    }
}

impl fmt::Debug for PhysAddr {
    fn fmt(&self, f: &mut fmt::Formatter<'_>) -> fmt::Result {
        write!(f, "PhysAddr({:#x})", self.0)
    }
}

impl fmt::Display for PhysAddr {
    fn fmt(&self, f: &mut fmt::Formatter<'_>) -> fmt::Result {
        write!(f, "{:#x}", self.0)
    }
}

/// A frame that a call named or granted.
#[derive(Clone, Copy, Debug, PartialEq, Eq, Hash)]
pub struct Frame {
    /// Where it starts.
    pub address: PhysAddr,
    /// Its bytes, or what the call says of them.
    pub size: usize,
}

/// What an entry of the boot map is for.
#[derive(Clone, Copy, Debug, PartialEq, Eq, Hash)]
pub enum MemoryRegionKind {
    /// The store manages it.
    UsableRam,
    /// Passed by.
    Reserved,
    /// Passed by.
    BootloaderReserved,
}

/// An entry of the boot map.
#[derive(Clone, Copy, Debug, PartialEq, Eq, Hash)]
pub struct MemoryRegion {
    /// Its first address, on a page's edge or off it.
    pub start: PhysAddr,
    /// Its bytes.
    pub length: usize,
    /// What it is for.
    pub kind: MemoryRegionKind,
}

/// What a grant asks for, one bit each.
#[derive(Clone, Copy, Debug, Default, PartialEq, Eq, Hash)]
pub struct FrameAllocFlags(u32);

impl FrameAllocFlags {
    /// The frame is zero in every byte.
    pub const ZEROED: FrameAllocFlags = FrameAllocFlags(1);
    /// The frame counts as the kernel's.
    pub const KERNEL: FrameAllocFlags = FrameAllocFlags(2);
    /// The caller would wait: without a frame the refusal is
    /// [`MustWait`](crate::Error::MustWait).
    pub const WAIT_OK: FrameAllocFlags = FrameAllocFlags(4);

    /// None of them.
    pub const fn empty() -> FrameAllocFlags {
        FrameAllocFlags(0)
    }

    /// Those of a number's bits; others are left out.
    pub const fn from_bits_truncate(bits: u32) -> FrameAllocFlags {
        FrameAllocFlags(bits & 7)
    }

    /// Their bits.
    pub const fn bits(self) -> u32 {
        self.0
    }

    /// Whether all of the others are among these.
    pub const fn contains(self, others: FrameAllocFlags) -> bool {
        self.0 & others.0 == others.0
    }
}

impl ops::BitOr for FrameAllocFlags {
    type Output = FrameAllocFlags;

    fn bitor(self, others: FrameAllocFlags) -> FrameAllocFlags {
        FrameAllocFlags(self.0 | others.0)
    }
}

impl ops::BitOrAssign for FrameAllocFlags {
    fn bitor_assign(&mut self, others: FrameAllocFlags) {
        self.0 |= others.0;
    }
}

/// A pass of reclaim rounds.
#[derive(Clone, Copy, Debug, Default, PartialEq, Eq, Hash)]
pub struct Pass {
    /// Its rounds that worked so far.
    pub rounds: usize,
    /// The frames that they freed.
    pub freed: usize,
}
