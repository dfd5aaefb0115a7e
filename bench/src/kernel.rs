//! Grants, frees and finds through the library that a kernel links, against the
//! kernel's own, on a store of so many pages; and what the exported call adds to a
//! find: the test of the words, the counters read out of them and the answer.

use std::{alloc::Layout, hint::black_box};

use jilakkor::{FrameAllocFlags, FrameStore, MemoryRegion, MemoryRegionKind, PhysAddr};

use crate::{
    calls::{against, drive, heading, loans, region, FIRST, PAGE, TIMES, TURNS},
    clock::best,
    original, rattle,
};

/// The kernel boots once in a process, so that one store is timed in each.
pub fn run(managed: usize) {
    let (start, length) = region(managed);
    let map =
        [MemoryRegion { start: PhysAddr::new(start), length, kind: MemoryRegionKind::UsableRam }];
    let mut words = [0; jilakkor::WORDS];
    let mut records = vec![1; managed * jilakkor::RECORD_BYTES];
    let mut memory = vec![0; managed * PAGE];
    let mut queue = [0; 64];
    let mut store =
        FrameStore::boot(&mut words, &mut records, &mut memory, &mut queue, &map).unwrap();
    let times = (400_000 / managed).clamp(2, 2000);
    let layout = Layout::from_size_align(PAGE, PAGE).unwrap();
    let mut ours = || {
        for _ in 0..times {
            let flags = black_box(FrameAllocFlags::empty());
            let frame = store.try_alloc_frame(flags, black_box(layout)).unwrap();
            store.free_frame(black_box(frame.address)).unwrap();
        }
    };
    let theirs = original::boot(start, length);
    heading("the library, ns a call");
    against(
        &format!("{managed} pages: a grant and its free, a pair"),
        times,
        &mut ours,
        theirs.as_ref(),
        |it| (it.grants_and_frees)(times),
    );
    let mut finds = || find(&mut store, times);
    against(&format!("{managed} pages: a find"), times, &mut finds, theirs.as_ref(), |it| {
        (it.finds)(FIRST, times)
    });
    if managed == 16 {
        exported(&mut store);
    }
}

fn find(store: &mut FrameStore, times: usize) {
    for _ in 0..times {
        black_box(store.get_frame(black_box(PhysAddr::new(FIRST))).unwrap());
    }
}

/// A find through the library and the same find in a loop of Rattle's own, which has
/// the counters by value: what lies between is the exported call's.
fn exported(store: &mut FrameStore) {
    let mut lent = || find(store, TIMES);
    let mut loans = loans(16);
    let mut inside = || drive(rattle::finds, &mut loans, FIRST, TIMES);
    let [lent, inside] = best(TURNS, 1, [&mut lent, &mut inside]).map(|time| time / TIMES as f64);
    println!("\n{:<39}{:>12}{:>12}{:>8}", "16 pages, ns a call", "exported", "inside", "more");
    println!("{:<39}{lent:>12.1}{inside:>12.1}{:>8.1}", "a find", lent - inside);
}
