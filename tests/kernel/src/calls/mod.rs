//! Every exported function on small stores, with answers written by hand.

mod counted;
mod each;
mod exported;
mod forms;
mod paper;
mod refused;

pub use counted::OPS;

use core::alloc::Layout;
use std::{error::Error, fmt::Debug};

use jilakkor::{MemoryRegion, MemoryRegionKind, PhysAddr};

use crate::commands::Done;

pub fn all() -> Done {
    let parts: [(&str, fn() -> Checked); 5] = [
        ("the paper", paper::all),
        ("each call", each::all),
        ("refusals", refused::all),
        ("forms", forms::all),
        ("counters apart", counted::all),
    ];
    for (name, part) in parts {
        part().map_err(|error| format!("{name}: {error}"))?;
    }
    Ok("every exported function on small stores, as expected".into())
}

/// A refusal that nobody expected is an error too.
type Checked = Result<(), Box<dyn Error>>;

fn same<T: PartialEq + Debug>(what: &str, found: T, expected: T) -> Checked {
    if found == expected {
        return Ok(());
    }
    Err(format!("{what}: {found:?}, but {expected:?} is expected").into())
}

fn usable(start: u64, length: usize) -> MemoryRegion {
    MemoryRegion { start: PhysAddr::new(start), length, kind: MemoryRegionKind::UsableRam }
}

/// The map of the paper's example: 15 managed pages, the last at 0x10F000.
fn example() -> [MemoryRegion; 1] {
    [usable(0x100000, 0x10000)]
}

const EXAMPLE_PAGES: usize = 15;

/// The map of T10: 504 small frames, and one of 2 MiB at 0x400000.
fn large() -> [MemoryRegion; 1] {
    [usable(0x200000, 0x400000)]
}

const LARGE_PAGES: usize = 1016;

/// A layout whose size is its alignment.
fn layout(size: usize) -> Layout {
    Layout::from_size_align(size, size).expect("a power of two")
}
