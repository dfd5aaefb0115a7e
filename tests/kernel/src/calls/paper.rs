//! The paper's example and rows of its Table T.

use jilakkor::{Error, Frame, FrameAllocFlags, FrameStore, PhysAddr, FRAME_SIZE};

use super::{example, large, layout, same, usable, Checked, EXAMPLE_PAGES, LARGE_PAGES};
use crate::lot::Lot;

const NONE: FrameAllocFlags = FrameAllocFlags::empty();
const KERNEL: FrameAllocFlags = FrameAllocFlags::KERNEL;

pub fn all() -> Checked {
    the_example()?;
    t1()?;
    t5()?;
    t7()?;
    t8_and_t9()?;
    t10()?;
    t11()
}

/// Grants a page.
fn grant(store: &mut FrameStore, flags: FrameAllocFlags) -> Result<u64, Error> {
    let frame = store.try_alloc_frame(flags, layout(FRAME_SIZE))?;
    Ok(frame.address.raw())
}

fn the_example() -> Checked {
    let mut lot = Lot::new(EXAMPLE_PAGES, 64);
    let mut store = lot.boot(&example())?;
    same("boot", store.managed_bytes(), 61440)?;
    let frame = Frame { address: PhysAddr::new(1110016), size: FRAME_SIZE };
    same("alloc", store.try_alloc_frame(NONE, layout(FRAME_SIZE)), Ok(frame))?;
    same("free", store.free_frame(frame.address), Ok(frame))?;
    same("free again", store.free_frame(frame.address), Err(Error::NotHeld))?;
    same("low", store.is_low_mem(), Ok(false))
}

fn t1() -> Checked {
    let mut lot = Lot::new(0, 0);
    let mut store = lot.boot(&[])?;
    same("T1, managed", store.managed_bytes(), 0)?;
    same("T1, low", store.is_low_mem(), Ok(true))?;
    same("T1, a grant", grant(&mut store, NONE), Err(Error::NoFrame))
}

fn t5() -> Checked {
    let mut lot = Lot::new(2, 0);
    let mut store = lot.boot(&[usable(0x1001, 0x4000)])?;
    same("T5", grant(&mut store, NONE), Ok(0x4000))
}

fn t7() -> Checked {
    let mut lot = Lot::new(EXAMPLE_PAGES, 0);
    let mut store = lot.boot(&example())?;
    for page in (0x101..=0x10F).rev() {
        same("T7, a grant", grant(&mut store, NONE), Ok(page << 12))?;
    }
    same("T7, the sixteenth", grant(&mut store, NONE), Err(Error::NoFrame))?;
    same("T7, idle", store.stats().idle, 1)
}

fn t8_and_t9() -> Checked {
    for (what, flags, last) in [("T8", NONE, 4), ("T9", KERNEL, 5)] {
        let mut lot = Lot::new(EXAMPLE_PAGES, 0);
        let mut store = lot.boot(&example())?;
        for _ in 0..last {
            grant(&mut store, flags)?;
        }
        same(what, store.is_low_mem(), Ok(false))?;
        grant(&mut store, flags)?;
        same(what, store.is_low_mem(), Ok(true))?;
    }
    Ok(())
}

fn t10() -> Checked {
    let mut lot = Lot::new(LARGE_PAGES, 0);
    let mut store = lot.boot(&large())?;
    same("T10, managed", store.managed_bytes(), LARGE_PAGES * FRAME_SIZE)?;
    for page in 0x1FF..0x601 {
        let size = match page {
            0x208..0x400 => Ok(FRAME_SIZE),
            0x400 => Ok(512 * FRAME_SIZE),
            0x401..0x600 => Ok(0),
            _ => Err(Error::Outside),
        };
        let address = PhysAddr::new(page << 12);
        let found = store.get_frame(PhysAddr::new((page << 12) + 4095));
        same("T10, a page", found, size.map(|size| Frame { address, size }))?;
    }
    Ok(())
}

fn t11() -> Checked {
    let mut lot = Lot::new(LARGE_PAGES, 0);
    let mut store = lot.boot(&large())?;
    for page in (0x208..0x400).rev() {
        same("T11, a small frame", grant(&mut store, NONE), Ok(page << 12))?;
    }
    same("T11, the first piece", grant(&mut store, NONE), Ok(0x400000))?;
    same("T11, the second", grant(&mut store, NONE), Ok(0x5FF000))
}
