//! Calls made through the crate `jilakkor`.

use core::alloc::Layout;

use jilakkor::{
    Error, Frame, FrameAllocFlags, FrameStore, MemoryRegion, MemoryRegionKind, PhysAddr,
    STATS_BYTES,
};
use script::model::{Answer, Asked, Call, Entry, Range, Told};

use crate::{
    ffi,
    lot::Lot,
    play::{watched, Caller},
};

/// Resumes the store for each call, so that every state between two calls is
/// audited, and looks at the loans of refused ones.
#[derive(Default)]
pub struct Safe {
    calls: u64,
}

impl Caller for Safe {
    fn boot(&mut self, map: &[Entry], lot: &mut Lot) -> Result<Answer, String> {
        let map: Vec<MemoryRegion> = map.iter().map(region).collect();
        watched(lot, |lot| Ok(number(lot.boot(&map).map(|store| booted(&store)))))
    }

    fn call(&mut self, call: &Call, lot: &mut Lot) -> Result<Answer, String> {
        self.calls += 1;
        let write = self.calls % 2 == 0;
        watched(lot, |lot| {
            if let Some(answer) = bad_layout(call, lot) {
                return Ok(answer);
            }
            let mut store = lot.resume().map_err(|_| "the store can't be resumed")?;
            Ok(number(perform(&mut store, call, write)))
        })
    }
}

/// The answer of a boot.
pub fn booted(store: &FrameStore) -> Told {
    Told::Numbers(0, store.managed_bytes() as u64)
}

pub fn region(entry: &Entry) -> MemoryRegion {
    let kinds = [
        MemoryRegionKind::UsableRam,
        MemoryRegionKind::Reserved,
        MemoryRegionKind::BootloaderReserved,
    ];
    MemoryRegion {
        start: PhysAddr::new(entry.start),
        length: entry.length as usize,
        kind: kinds[entry.kind as usize],
    }
}

/// The refusal by its number.
pub fn number(answer: Result<Told, Error>) -> Answer {
    answer.map_err(|error| error.number() as u8)
}

/// The crate takes a `Layout`, which is never a bad one: those are asked for beside
/// it.
fn bad_layout(call: &Call, lot: &mut Lot) -> Option<Answer> {
    let (Call::Alloc(asked) | Call::Take(asked)) = call else {
        return None;
    };
    if layout(*asked).is_some() {
        return None;
    }
    let flags = flags(*asked).bits().into();
    let returned = match call {
        Call::Alloc(_) => ffi::alloc(lot.lent(), asked.size, asked.align, flags),
        _ => ffi::take(lot.lent(), asked.size, asked.align, flags),
    };
    let [address, bytes] = lot.answered();
    Some(if returned == 0 { Ok(Told::Numbers(address, bytes)) } else { Err(returned as u8) })
}

fn layout(asked: Asked) -> Option<Layout> {
    Layout::from_size_align(asked.size as usize, asked.align as usize).ok()
}

fn flags(asked: Asked) -> FrameAllocFlags {
    let mut flags = FrameAllocFlags::empty();
    let wanted = [
        (asked.zeroed, FrameAllocFlags::ZEROED),
        (asked.kernel, FrameAllocFlags::KERNEL),
        (asked.wait_ok, FrameAllocFlags::WAIT_OK),
    ];
    wanted.into_iter().filter(|it| it.0).for_each(|it| flags |= it.1);
    flags
}

fn told(frame: Frame) -> Told {
    Told::Numbers(frame.address.raw(), frame.size as u64)
}

/// Makes a call whose layout, if any, is a good one. A fill may be made as a write,
/// which does the same.
pub fn perform(store: &mut FrameStore, call: &Call, write: bool) -> Result<Told, Error> {
    let at = PhysAddr::new;
    Ok(match *call {
        Call::Alloc(asked) | Call::Take(asked) => {
            let layout = layout(asked).ok_or(Error::BadLayout)?;
            match call {
                Call::Alloc(_) => told(store.try_alloc_frame(flags(asked), layout)?),
                _ => told(store.try_alloc_split_frames(flags(asked), layout)?),
            }
        }
        Call::Split(address) => told(store.split_frame(at(address))?),
        Call::Free(address) => told(store.free_frame(at(address))?),
        Call::Zero(address) => told(store.zero_frame(at(address))?),
        Call::Dirty(address) => told(store.set_not_zero(at(address))?),
        Call::Find(address) => told(store.get_frame(at(address))?),
        Call::Queue(address) => told(store.queue_frame(at(address))?),
        Call::Fill(range, byte) => fill(store, range, byte, write)?,
        Call::Copy { target, source } => {
            let [doff, soff, len] = [target.offset, source.offset, target.length].map(size);
            let (frame, other) = (at(target.address), at(source.address));
            store.copy_contents_from(frame, other, doff, soff, len)?;
            Told::Numbers(target.address, target.length)
        }
        Call::Pcopy { target, source } => {
            let [doff, len] = [target.offset, target.length].map(size);
            store.copy_contents_from_physaddr(at(target.address), doff, at(source), len)?;
            Told::Numbers(target.address, target.length)
        }
        _ => counts(store, call)?,
    })
}

fn size(number: u64) -> usize {
    number as usize
}

fn fill(store: &mut FrameStore, range: Range, byte: u8, write: bool) -> Result<Told, Error> {
    let (frame, [offset, len]) =
        (PhysAddr::new(range.address), [range.offset, range.length].map(size));
    if write && len <= 1 << 22 {
        store.write(frame, offset, &vec![byte; len])?;
    } else {
        store.fill(frame, offset, len, byte)?;
    }
    Ok(Told::Numbers(range.address, range.length))
}

/// The calls that name no frame.
fn counts(store: &mut FrameStore, call: &Call) -> Result<Told, Error> {
    Ok(match *call {
        Call::Round => {
            let pass = store.reclaim()?;
            Told::Numbers(pass.rounds as u64, pass.freed as u64)
        }
        Call::Lend(pages) => Told::Numbers(0, store.track_page_pager(size(pages))? as u64),
        Call::Back(pages) => Told::Numbers(0, store.untrack_page_pager(size(pages))? as u64),
        Call::Low => Told::Numbers(0, store.is_low_mem()?.into()),
        _ => {
            let mut text = [0; STATS_BYTES];
            Told::Text(store.print_tracker_stats(&mut text)?.into())
        }
    })
}
