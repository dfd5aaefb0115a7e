//! Each call of the crate: what it answers, and what it leaves.

use jilakkor::{
    Counters, Error, Frame, FrameAllocFlags, FrameStore, Pass, PhysAddr, FRAME_SIZE, STATS_BYTES,
};
use script::case::lent;

use super::{example, large, layout, same, Checked, EXAMPLE_PAGES, LARGE_PAGES};
use crate::lot::Lot;

const NONE: FrameAllocFlags = FrameAllocFlags::empty();
const ZEROED: FrameAllocFlags = FrameAllocFlags::ZEROED;
const KERNEL: FrameAllocFlags = FrameAllocFlags::KERNEL;

const LARGE: usize = 512 * FRAME_SIZE;

pub fn all() -> Checked {
    grants()?;
    contents()?;
    copies()?;
    marks()?;
    reclaim()?;
    pager()?;
    statistics()?;
    resumed()
}

fn at(address: u64, size: usize) -> Frame {
    Frame { address: PhysAddr::new(address), size }
}

/// Grants a page.
fn grant(store: &mut FrameStore, flags: FrameAllocFlags) -> Result<PhysAddr, Error> {
    Ok(store.try_alloc_frame(flags, layout(FRAME_SIZE))?.address)
}

/// A grant split at once, one split later, and their pieces.
fn grants() -> Checked {
    let mut lot = Lot::new(LARGE_PAGES, 0);
    let mut store = lot.boot(&large())?;
    let address = PhysAddr::new(0x400000);
    let taken = store.try_alloc_split_frames(KERNEL, layout(LARGE))?;
    same("a split grant", taken, at(0x400000, LARGE))?;
    same("its counter", store.stats().kernel_used, 512)?;
    same("its first piece", store.get_frame(address)?, at(0x400000, FRAME_SIZE))?;
    same("its last piece", store.free_frame(PhysAddr::new(0x5FF000))?, at(0x5FF000, FRAME_SIZE))?;
    let mut lot = Lot::new(LARGE_PAGES, 0);
    let mut store = lot.boot(&large())?;
    same("a large grant", store.try_alloc_frame(NONE, layout(LARGE))?, at(0x400000, LARGE))?;
    same("its split", store.split_frame(address)?, at(0x400000, LARGE))?;
    same("a page's split", store.split_frame(address)?, at(0x400000, FRAME_SIZE))?;
    same("a piece", store.get_frame(PhysAddr::new(0x401000))?, at(0x401000, FRAME_SIZE))?;
    let expected =
        Counters { page_data: 512, idle: 512, total: 1024, allocated: 512, ..Counters::default() };
    same("all counters", store.stats(), expected)
}

/// Zeroed grants, fill, write and read, where the bytes stand in the loan.
fn contents() -> Checked {
    let mut lot = Lot::new(EXAMPLE_PAGES, 0);
    let mut store = lot.boot(&example())?;
    let frame = grant(&mut store, ZEROED)?;
    same("a zeroed grant", store.read(frame, 0, FRAME_SIZE)?, &[0; FRAME_SIZE][..])?;
    store.fill(frame, 4090, 6, 7)?;
    store.write(frame, 4088, b"abc")?;
    same("fill and write", store.read(frame, 4086, 10)?, b"\0\0abc\x07\x07\x07\x07\x07")?;
    same("an empty part", store.read(frame, 4096, 0)?, b"")?;
    same("a zeroed frame", store.zero_frame(frame)?, at(0x10F000, FRAME_SIZE))?;
    same("its bytes", store.read(frame, 0, FRAME_SIZE)?, &[0; FRAME_SIZE][..])?;
    store.write(frame, 1, b"end")?;
    let before = Lot::new(EXAMPLE_PAGES, 0).memory;
    // The frame is the region's last page.
    let place = 14 * FRAME_SIZE;
    let memory = lent(&lot.memory);
    same("the loan", &memory[place..place + 5], b"\0end\0")?;
    same("the rest of it", &memory[..place], &lent(&before)[..place])
}

fn copies() -> Checked {
    let mut lot = Lot::new(EXAMPLE_PAGES, 0);
    let mut store = lot.boot(&example())?;
    let [a, b] = [grant(&mut store, ZEROED)?, grant(&mut store, ZEROED)?];
    store.write(a, 0, b"0123456789")?;
    store.copy_contents_from(b, a, 100, 2, 4)?;
    same("a copy", store.read(b, 99, 6)?, b"\x002345\0")?;
    store.copy_contents_from(a, a, 2, 0, 8)?;
    same("an overlapping one", store.read(a, 0, 12)?, b"0101234567\0\0")?;
    store.copy_contents_from_physaddr(b, 0, PhysAddr::new(a.raw() + 4), 3)?;
    same("one from an address", store.read(b, 0, 5)?, b"234\0\0")?;
    store.zero_frame(a)?;
    store.copy_contents_from(b, a, 101, 0, 2)?;
    same("one of zeros", store.read(b, 99, 6)?, b"\x002\0\x005\0")
}

/// A frame that is freed with its mark is granted to whoever asks for zeros.
fn marks() -> Checked {
    let mut lot = Lot::new(EXAMPLE_PAGES, 0);
    let mut store = lot.boot(&example())?;
    let [a, b] = [grant(&mut store, NONE)?, grant(&mut store, NONE)?];
    for frame in [a, b] {
        store.zero_frame(frame)?;
    }
    same("a mark taken off", store.set_not_zero(b)?, at(b.raw(), FRAME_SIZE))?;
    store.free_frame(a)?;
    store.free_frame(b)?;
    same("an unmarked frame", grant(&mut store, NONE)?, b)?;
    same("one below it", grant(&mut store, NONE)?, PhysAddr::new(0x10D000))?;
    same("a marked frame", grant(&mut store, ZEROED)?, a)
}

fn reclaim() -> Checked {
    let mut lot = Lot::new(EXAMPLE_PAGES, 4);
    let mut store = lot.boot(&example())?;
    let frames = [(); 6].map(|()| grant(&mut store, NONE));
    let [first, second, ..] = frames;
    let (first, second) = (first?, second?);
    same("queued", store.queue_frame(first)?, at(0x10F000, FRAME_SIZE))?;
    store.queue_frame(second)?;
    store.queue_frame(first)?;
    same("places taken", store.queued(), 3)?;
    same("a round", store.reclaim()?, Pass { rounds: 1, freed: 2 })?;
    same("the pass", store.pass(), Pass { rounds: 1, freed: 2 })?;
    same("places left", store.queued(), 0)?;
    same("no longer low", store.is_low_mem()?, false)?;
    same("reclaimed before its end", store.stats().reclaimed, 0)?;
    same("its end", store.reclaim()?, Pass { rounds: 1, freed: 2 })?;
    same("the pass after it", store.pass(), Pass::default())?;
    same("reclaimed", store.stats().reclaimed, 2)?;
    // The queue's last was freed first, and grants come from the lists' ends.
    same("a grant", grant(&mut store, NONE)?, second)
}

fn pager() -> Checked {
    let mut lot = Lot::new(EXAMPLE_PAGES, 0);
    let mut store = lot.boot(&example())?;
    same("lent", store.track_page_pager(5)?, 5)?;
    same("given back", store.untrack_page_pager(2)?, 3)?;
    same("too much", store.untrack_page_pager(4), Err(Error::PagerLow))?;
    same("outstanding", store.stats().pager_outstanding, 3)?;
    same("lent, wrapping", store.track_page_pager(usize::MAX)?, 2)
}

fn statistics() -> Checked {
    let mut lot = Lot::new(EXAMPLE_PAGES, 0);
    let mut store = lot.boot(&example())?;
    let frame = grant(&mut store, KERNEL)?;
    for _ in 0..3 {
        grant(&mut store, NONE)?;
    }
    store.free_frame(frame)?;
    store.track_page_pager(9)?;
    let mut text = [b'*'; STATS_BYTES + 1];
    let expected = "memory status (in frames):
       total: 16 -- a: 4 f: 1 r: 0, 0 waiters
        idle: 13 81%
      kernel: 0 0%
        page: 3 18% (9 loaned)
";
    same("the statistics", store.print_tracker_stats(&mut text)?, expected)?;
    let length = expected.len();
    same("behind them", &text[length..], &[b'*'; STATS_BYTES + 1][length..])
}

/// The loans hold all that there is.
fn resumed() -> Checked {
    let mut lot = Lot::new(EXAMPLE_PAGES, 2);
    let mut store = lot.boot(&example())?;
    let frame = grant(&mut store, NONE)?;
    store.write(frame, 0, b"kept")?;
    store.queue_frame(frame)?;
    let stats = store.stats();
    let mut store = lot.resume()?;
    store.audit()?;
    same("counters", store.stats(), stats)?;
    same("the queue", store.queued(), 1)?;
    same("a frame", store.read(frame, 0, 4)?, b"kept")
}
