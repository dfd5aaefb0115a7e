//! Every exported function in a table, with arguments that a prepared store
//! accepts.

use super::{example, layout, Checked, EXAMPLE_PAGES};
use crate::{
    ffi::{self, Counters, Entry, Lent},
    lot::Lot,
};

/// A function over the loans; `jilakkor_call` has the counters besides.
pub type Exported = (&'static str, fn(Lent<'_>, &mut Counters) -> u32);

/// The frame that is held.
const FRAME: u64 = 0x10F000;
const PAGE: u64 = 4096;

pub const BOOT: Exported = ("boot", |lent, _| {
    let map = [Entry { start: 0x100000, length: 0x10000, kind: 0 }];
    ffi::boot(&map, lent)
});

pub const CALL: Exported =
    ("call", |lent, counters| ffi::call(counters, lent, 3, &[FRAME], &mut []));

/// All others.
pub const CALLS: [Exported; 19] = [
    ("audit", |lent, _| ffi::audit(lent.words, lent.records, lent.memory.len(), lent.queue.len())),
    ("alloc", |lent, _| ffi::alloc(lent, PAGE, PAGE, 3)),
    ("take", |lent, _| ffi::take(lent, PAGE, PAGE, 0)),
    ("split", |lent, _| ffi::split(lent, FRAME)),
    ("free", |lent, _| ffi::free(lent, FRAME)),
    ("zero", |lent, _| ffi::zero(lent, FRAME)),
    ("dirty", |lent, _| ffi::dirty(lent, FRAME)),
    ("find", |lent, _| ffi::find(lent, FRAME)),
    ("queue", |lent, _| ffi::queue(lent, FRAME)),
    ("fill", |lent, _| ffi::fill(lent, FRAME, 1, 2, 3)),
    ("copy", |lent, _| ffi::copy(lent, FRAME, 0, FRAME, 9, 9)),
    ("pcopy", |lent, _| ffi::pcopy(lent, FRAME, 0, FRAME, 9)),
    ("round", |lent, _| ffi::round(lent)),
    ("lend", |lent, _| ffi::lend(lent, 1)),
    ("back", |lent, _| ffi::back(lent, 0)),
    ("low", |lent, _| ffi::low(lent)),
    ("write", |lent, _| ffi::write(lent, FRAME, 5, b"bytes")),
    ("read", |lent, _| ffi::read(lent, FRAME, 5, 6)),
    ("stats", |lent, _| ffi::stats(lent, &mut [0; 368])),
];

/// A store with one frame held, and its counters.
pub fn prepared() -> Result<(Lot, Counters), Box<dyn std::error::Error>> {
    let mut lot = Lot::new(EXAMPLE_PAGES, 1);
    let mut store = lot.boot(&example())?;
    store.try_alloc_frame(jilakkor::FrameAllocFlags::empty(), layout(jilakkor::FRAME_SIZE))?;
    let jilakkor::Counters { page_data, idle, total, allocated, .. } = store.stats();
    let counters = Counters { page_data, idle, total, allocated, ..Counters::default() };
    Ok((lot, counters))
}

/// Every function with the refusal of something that is lent too short.
pub fn each(act: impl Fn(Exported, u32) -> Checked) -> Checked {
    CALLS.into_iter().chain([CALL]).try_for_each(|exported| act(exported, 6))?;
    act(BOOT, 5)
}
