//! What differs between machines. Addresses are after arch/aarch64/address.rs,
//! with the parts that frame.rs uses; where physical memory stands
//! (`phys_to_virt`) is up to `physical`.

pub mod memory {
    use super::{PhysAddr, VirtAddr};

    pub mod frame {
        pub const FRAME_SIZE: usize = 4096;
    }

    pub fn phys_to_virt(address: PhysAddr) -> VirtAddr {
        VirtAddr(crate::physical::pointer(address.raw()))
    }
}

pub mod processor {
    /// A frame's lock is held for the length of one function, and one thread
    /// runs at a time: whoever meets it held would spin for ever.
    pub fn spin_wait_iteration() {
        panic!("a frame's lock was left held");
    }
}

#[derive(Clone, Copy)]
pub struct VirtAddr(*mut u8);

impl VirtAddr {
    pub fn as_mut_ptr<T>(&self) -> *mut T {
        self.0.cast()
    }
}

#[derive(Clone, Copy, PartialEq, PartialOrd, Eq, Ord)]
#[repr(transparent)]
pub struct PhysAddr(u64);

#[derive(Clone, Copy, Debug)]
pub struct NonCanonical;

impl PhysAddr {
    /// The kernel asks the processor for this. 48 is one of the widths it
    /// knows, and wide enough for the end of a region that ends at 2^40.
    const WIDTH: u32 = 48;

    pub fn new(address: u64) -> Result<Self, NonCanonical> {
        if address < 1 << Self::WIDTH {
            Ok(Self(address))
        } else {
            Err(NonCanonical)
        }
    }

    /// # Safety
    /// The address must be valid wherever it is used as one.
    pub const unsafe fn new_unchecked(address: u64) -> Self {
        Self(address)
    }

    pub fn offset(&self, offset: usize) -> Result<Self, NonCanonical> {
        Self::new(self.0.checked_add(offset as u64).ok_or(NonCanonical)?)
    }

    pub fn is_aligned_to(&self, alignment: usize) -> bool {
        self.0.is_multiple_of(alignment as u64)
    }

    pub fn raw(&self) -> u64 {
        self.0
    }

    pub fn align_up(&self, align: u64) -> Result<Self, NonCanonical> {
        assert!(align.is_power_of_two());
        Self::new(self.0.checked_next_multiple_of(align).ok_or(NonCanonical)?)
    }
}

impl core::ops::Sub for PhysAddr {
    type Output = usize;

    fn sub(self, other: PhysAddr) -> usize {
        self.0.checked_sub(other.0).unwrap() as usize
    }
}

impl core::fmt::Debug for PhysAddr {
    fn fmt(&self, f: &mut core::fmt::Formatter) -> core::fmt::Result {
        write!(f, "PHYS(0x{:x})", self.0)
    }
}
