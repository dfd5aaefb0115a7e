//! The parent of the kernel's two files: the types of the boot map, as
//! memory/mod.rs has them, and the modules `frame` and `tracker`, which build.rs
//! makes of the files' text.

pub use crate::arch::PhysAddr;

#[derive(Copy, Clone, Debug, Eq, PartialEq)]
pub enum MemoryRegionKind {
    UsableRam,
    Reserved,
    BootloaderReserved,
}

#[derive(Debug, Clone, Copy)]
pub struct MemoryRegion {
    pub start: PhysAddr,
    pub length: usize,
    pub kind: MemoryRegionKind,
}

include!(concat!(env!("OUT_DIR"), "/modules.rs"));
