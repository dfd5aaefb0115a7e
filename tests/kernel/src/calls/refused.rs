//! Each refusal that a caller of the crate can meet, with loans that stay as they
//! were; the words of all of them.

use jilakkor::{Error, FrameAllocFlags, FrameStore, MemoryRegion, PhysAddr, FRAME_SIZE};
use script::case::lent_mut;

use super::{example, large, layout, same, usable, Checked, EXAMPLE_PAGES, LARGE_PAGES};
use crate::{ffi, lot::Lot};

const NONE: FrameAllocFlags = FrameAllocFlags::empty();
const WAIT_OK: FrameAllocFlags = FrameAllocFlags::WAIT_OK;

/// The sheet's words, in the order of their numbers.
const WORDS: [&str; 17] = [
    "long map",
    "far address",
    "overlap",
    "too many pages",
    "short loan",
    "torn",
    "bad layout",
    "no level",
    "no frame",
    "must wait",
    "outside",
    "no frame start",
    "not held",
    "past the end",
    "pager low",
    "queue full",
    "bad line",
];

pub fn all() -> Checked {
    words()?;
    boots()?;
    short()?;
    torn()?;
    grants()?;
    frames()?;
    ranges()?;
    counts()
}

fn words() -> Checked {
    for (word, number) in WORDS.into_iter().zip(1..) {
        same("a word", Error::from(number).to_string(), word.into())?;
        same("its number", Error::from(number).number(), number)?;
    }
    for number in [0, 18, u32::MAX] {
        same("no such number", Error::from(number), Error::Unknown(number))?;
        same("its number", Error::from(number).number(), number)?;
    }
    same("no such word", Error::Unknown(18).to_string(), "unknown refusal 18".into())
}

/// The act is refused with the error, and changes nothing.
fn refused<T>(
    what: &str,
    lot: &mut Lot,
    error: Error,
    act: impl FnOnce(&mut Lot) -> Result<T, Error>,
) -> Checked {
    let before = lot.clone();
    let found = act(lot).err();
    same(what, found, Some(error))?;
    same(what, lot.difference(&before), None)
}

/// As a call on the resumed store.
fn on<T>(
    what: &str,
    lot: &mut Lot,
    error: Error,
    act: impl FnOnce(&mut FrameStore) -> Result<T, Error>,
) -> Checked {
    refused(what, lot, error, |lot| act(&mut lot.resume()?).map(|_| ()))
}

fn boots() -> Checked {
    let nothing = usable(0, 0);
    let maps: [(&[MemoryRegion], Error); 8] = [
        (&[nothing; 9], Error::LongMap),
        (&[usable(u64::MAX, 9); 20], Error::LongMap),
        (&[usable((1 << 40) + 1, 0)], Error::FarAddress),
        (&[usable(u64::MAX, usize::MAX)], Error::FarAddress),
        (&[usable(4096, 8192), nothing, usable(8192, 8192)], Error::Overlap),
        (&[usable(0, (1 << 32) + 4096)], Error::TooManyPages),
        (&[usable(0, 1 << 32)], Error::ShortLoan),
        (&[usable(0x100000, 0x11000)], Error::ShortLoan),
    ];
    let mut lot = Lot::new(EXAMPLE_PAGES, 0);
    for (map, error) in maps {
        refused("a boot", &mut lot, error, |lot| lot.boot(map).map(|_| ()))?;
    }
    lot.boot(&[nothing; 8])?;
    Ok(())
}

/// Loans that are one short: 5 at the boot, 6 later.
fn short() -> Checked {
    let cuts: [fn(&mut Lot); 3] = [
        |lot| lot.words.truncate(lot.words.len() - 1),
        |lot| lot.records.truncate(lot.records.len() - 1),
        |lot| lot.memory.truncate(lot.memory.len() - 1),
    ];
    for cut in cuts {
        let mut lot = Lot::new(EXAMPLE_PAGES, 0);
        cut(&mut lot);
        refused("a boot", &mut lot, Error::ShortLoan, |lot| lot.boot(&example()).map(|_| ()))?;
        let mut lot = Lot::new(EXAMPLE_PAGES, 0);
        lot.boot(&example())?;
        cut(&mut lot);
        refused("resuming", &mut lot, Error::Torn, |lot| lot.resume().map(|_| ()))?;
    }
    let mut lot = Lot::new(EXAMPLE_PAGES, 2);
    let mut store = lot.boot(&example())?;
    let frame = store.try_alloc_frame(NONE, layout(FRAME_SIZE))?.address;
    store.queue_frame(frame)?;
    store.queue_frame(frame)?;
    lot.queue.truncate(lot.queue.len() - 1);
    refused("a short queue", &mut lot, Error::Torn, |lot| lot.resume().map(|_| ()))
}

/// What somebody else wrote.
fn torn() -> Checked {
    let writes: [fn(&mut Lot); 6] = [
        |lot| lent_mut(&mut lot.words)[0] = 2,
        |lot| lent_mut(&mut lot.words)[2] -= 1,
        |lot| lent_mut(&mut lot.words)[94] -= 1,
        |lot| lent_mut(&mut lot.words)[99] = 1,
        |lot| lent_mut(&mut lot.records)[0] ^= 2,
        |lot| lent_mut(&mut lot.records)[16 * 14 + 12] ^= 1,
    ];
    for write in writes {
        let mut lot = Lot::new(EXAMPLE_PAGES, 0);
        lot.boot(&example())?;
        write(&mut lot);
        refused("resuming", &mut lot, Error::Torn, |lot| lot.resume().map(|_| ()))?;
    }
    Ok(())
}

/// 7 can't be asked for by a `Layout`.
fn grants() -> Checked {
    let mut lot = Lot::new(EXAMPLE_PAGES, 0);
    lot.boot(&example())?;
    for (size, align) in [(4096, 0), (4096, 3), (1 << 63, 1), (i64::MAX as u64, 2)] {
        refused("a bad layout", &mut lot, Error::BadLayout, |lot| {
            Err::<(), _>(Error::from(ffi::alloc(lot.lent(), size, align, 0)))
        })?;
    }
    let vast = layout(1 << 31);
    on("a vast grant", &mut lot, Error::NoLevel, |it| it.try_alloc_frame(NONE, vast))?;
    on("a vast one", &mut lot, Error::NoLevel, |it| it.try_alloc_split_frames(WAIT_OK, vast))?;
    let large = layout(2 << 20);
    on("a large grant", &mut lot, Error::NoFrame, |it| it.try_alloc_frame(NONE, large))?;
    on("a large one", &mut lot, Error::NoFrame, |it| it.try_alloc_split_frames(NONE, large))?;
    on("one that waits", &mut lot, Error::MustWait, |it| it.try_alloc_frame(WAIT_OK, large))?;
    on("one that waits", &mut lot, Error::MustWait, |it| it.try_alloc_split_frames(WAIT_OK, large))
}

/// Calls on a frame.
fn frames() -> Checked {
    type Act = fn(&mut FrameStore, PhysAddr) -> Result<(), Error>;
    let acts: [Act; 11] = [
        |store, frame| store.split_frame(frame).map(|_| ()),
        |store, frame| store.free_frame(frame).map(|_| ()),
        |store, frame| store.zero_frame(frame).map(|_| ()),
        |store, frame| store.set_not_zero(frame).map(|_| ()),
        |store, frame| store.queue_frame(frame).map(|_| ()),
        |store, frame| store.fill(frame, 0, 0, 0),
        |store, frame| store.write(frame, 0, &[]),
        |store, frame| store.read(frame, 0, 0).map(|_| ()),
        |store, frame| store.copy_contents_from(frame, PhysAddr::new(0x400000), 0, 0, 0),
        |store, frame| store.copy_contents_from(PhysAddr::new(0x400000), frame, 0, 0, 0),
        |store, frame| store.copy_contents_from_physaddr(frame, 0, PhysAddr::new(0x400000), 0),
    ];
    let mut lot = Lot::new(LARGE_PAGES, 1);
    lot.boot(&large())?.try_alloc_frame(NONE, layout(2 << 20))?;
    let named = [
        (0x207FFF, Error::Outside),
        (0x600000, Error::Outside),
        (u64::MAX, Error::Outside),
        (0x400001, Error::NoFrameStart),
        (0x401000, Error::NoFrameStart),
        (0x3FF000, Error::NotHeld),
    ];
    for (address, error) in named {
        for act in acts {
            on("a call on a frame", &mut lot, error, |it| act(it, PhysAddr::new(address)))?;
        }
    }
    let outside = PhysAddr::new(0x207FFF);
    on("a lookup", &mut lot, Error::Outside, |it| it.get_frame(outside))?;
    let frame = PhysAddr::new(0x400000);
    on("a source", &mut lot, Error::Outside, |it| {
        it.copy_contents_from_physaddr(frame, 0, outside, 0)
    })
}

fn ranges() -> Checked {
    let mut lot = Lot::new(EXAMPLE_PAGES, 0);
    lot.boot(&example())?.try_alloc_frame(NONE, layout(FRAME_SIZE))?;
    let frame = PhysAddr::new(0x10F000);
    let past = Error::PastTheEnd;
    for (offset, len) in [(4097, 0), (4096, 1), (0, 4097), (usize::MAX, 1), (1, usize::MAX)] {
        on("a fill", &mut lot, past, |it| it.fill(frame, offset, len, 1))?;
        on("a read", &mut lot, past, |it| it.read(frame, offset, len).map(|_| ()))?;
        on("a target", &mut lot, past, |it| it.copy_contents_from(frame, frame, offset, 0, len))?;
        on("a source", &mut lot, past, |it| it.copy_contents_from(frame, frame, 0, offset, len))?;
        on("a place's target", &mut lot, past, |it| {
            it.copy_contents_from_physaddr(frame, offset, PhysAddr::new(0x101000), len)
        })?;
    }
    on("a write", &mut lot, past, |it| it.write(frame, 4090, b"1234567"))?;
    on("a place", &mut lot, past, |it| {
        it.copy_contents_from_physaddr(frame, 0, PhysAddr::new(0x10FFFF), 2)
    })
}

fn counts() -> Checked {
    let mut lot = Lot::new(EXAMPLE_PAGES, 1);
    let mut store = lot.boot(&example())?;
    let frame = store.try_alloc_frame(NONE, layout(FRAME_SIZE))?.address;
    store.queue_frame(frame)?;
    on("a full queue", &mut lot, Error::QueueFull, |it| it.queue_frame(frame))?;
    on("an empty loan", &mut lot, Error::PagerLow, |it| it.untrack_page_pager(1))?;
    on("a short text", &mut lot, Error::Torn, |it| {
        let mut text = [7; jilakkor::STATS_BYTES - 1];
        let refused = it.print_tracker_stats(&mut text).map(|_| ());
        if text == [7; jilakkor::STATS_BYTES - 1] {
            refused
        } else {
            Ok(())
        }
    })
}
