//! The store as a kernel uses it, on memory of this process in place of a machine's:
//! one store for all, behind a lock, and a reclaim thread's work.

use std::{alloc::Layout, sync::Mutex};

use jilakkor::{
    Error, FrameAllocFlags, FrameStore, MemoryRegion, MemoryRegionKind, FRAME_SIZE, LEVEL_SIZES,
    RECORD_BYTES, STATS_BYTES, WORDS,
};

/// Usable memory from 2 MiB to 6 MiB: 1,024 pages, of which 8 are set aside.
const MAP: [MemoryRegion; 1] = [MemoryRegion {
    start: jilakkor::PhysAddr::new(0x200000),
    length: 1024 * FRAME_SIZE,
    kind: MemoryRegionKind::UsableRam,
}];
const PAGES: usize = 1016;
const PLACES: usize = 512;

type Lock = Mutex<FrameStore<'static>>;

/// All that is lent stays lent for as long as the kernel runs.
fn boot() -> Result<Lock, Error> {
    let records = vec![0; PAGES * RECORD_BYTES].leak();
    let memory = vec![0; PAGES * FRAME_SIZE].leak();
    let store =
        FrameStore::boot(vec![0; WORDS].leak(), records, memory, vec![0; PLACES].leak(), &MAP)?;
    println!("booted: {} bytes are managed", store.managed_bytes());
    Ok(Mutex::new(store))
}

fn layout(level: usize) -> Layout {
    let size = LEVEL_SIZES[level];
    Layout::from_size_align(size, size).expect("a level's size is its alignment")
}

/// A zeroed page of the kernel's own, say for a page table.
fn page_table(lock: &Lock) -> Result<(), Error> {
    let mut store = lock.lock().unwrap();
    let flags = FrameAllocFlags::ZEROED | FrameAllocFlags::KERNEL;
    let frame = store.try_alloc_frame(flags, layout(0))?;
    store.write(frame.address, 0, b"entry")?;
    let entry =
        String::from_utf8_lossy(store.read(frame.address, 0, 8)?).escape_debug().to_string();
    println!("granted: {} bytes at {}, which start with {entry}", frame.size, frame.address);
    store.free_frame(frame.address)?;
    let again = store.free_frame(frame.address).unwrap_err();
    println!("freed, and once more: refused {}, {again}", again.number());
    Ok(())
}

/// A large frame for the pager, in pages; most of them may be reclaimed.
fn pages(lock: &Lock) -> Result<(), Error> {
    let mut store = lock.lock().unwrap();
    let frame = store.try_alloc_split_frames(FrameAllocFlags::empty(), layout(1))?;
    let out = store.track_page_pager(frame.size / FRAME_SIZE)?;
    println!("granted: {} bytes at {}, split; {out} pages are lent", frame.size, frame.address);
    for page in 100..500 {
        store.queue_frame((frame.address.raw() + page * FRAME_SIZE as u64).into())?;
    }
    println!("queued: {}; memory is low: {}", store.queued(), store.is_low_mem()?);
    Ok(())
}

/// The reclaim thread: the lock is held for one round at a time.
fn reclaim(lock: &Lock) -> Result<(), Error> {
    loop {
        let mut store = lock.lock().unwrap();
        let pass = store.reclaim()?;
        println!("reclaim: {} rounds so far, {} frames freed", pass.rounds, pass.freed);
        if store.pass().rounds == 0 {
            return Ok(());
        }
    }
}

fn main() -> Result<(), Error> {
    let lock = boot()?;
    page_table(&lock)?;
    pages(&lock)?;
    reclaim(&lock)?;
    let mut store = lock.lock().unwrap();
    let vast = store.try_alloc_frame(FrameAllocFlags::WAIT_OK, layout(2)).unwrap_err();
    println!("a grant of 1 GiB: refused {}, {vast}", vast.number());
    print!("{}", store.print_tracker_stats(&mut [0; STATS_BYTES])?);
    Ok(())
}
