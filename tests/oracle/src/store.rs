//! The kernel's allocator and tracker, driven by calls. Their state is in
//! statics, so this is the only store of its process; `run` sees to that.

use core::alloc::Layout;

use crate::{
    call::{KERNEL, ZEROED},
    coroutine::{self, Step},
    dump::Dump,
    ground,
    kernel::console,
    memory::{
        frame::{self, FrameRef, PhysicalFrameFlags},
        tracker::{self, FrameAllocFlags},
        MemoryRegion, MemoryRegionKind, PhysAddr,
    },
    physical, Answer, Call, Entry,
};

/// The round that ends a pass by the limit: the kernel works a round before it
/// compares the rounds before that one with 1,000.
const LAST_ROUND: u64 = 1002;

pub struct Store {
    /// Worked rounds and frames freed in the present pass, as last reported.
    pass: (u64, u64),
    /// Why the run has left common ground, if it has.
    off: Option<&'static str>,
    /// Whether the kernel was started; a map off common ground leaves it alone.
    booted: bool,
}

impl Store {
    pub fn boot(map: &[Entry]) -> (Store, Answer) {
        let regions = match ground::map(map) {
            Ok(regions) => regions,
            Err(reason) => {
                let store = Store { pass: (0, 0), off: Some(reason), booted: false };
                return (store, Answer::Off(reason.into()));
            }
        };
        physical::set_up(&regions);
        frame::init(&map.iter().map(memory_region).collect::<Vec<_>>());
        tracker::start_reclaim_thread();
        let store = Store { pass: (0, 0), off: None, booted: true };
        let managed = frame::peek_managed().iter().map(|region| region.end - region.start).sum();
        (store, Answer::Done { address: 0, bytes: managed })
    }

    /// Does the call, or leaves common ground and does nothing from then on.
    pub fn call(&mut self, call: &Call) -> Answer {
        if self.off.is_none() {
            self.off = ground::call(call).err();
        }
        match self.off {
            Some(reason) => Answer::Off(reason.into()),
            None => self.perform(call),
        }
    }

    pub fn dump(&self) -> Dump {
        if !self.booted {
            return Dump::default();
        }
        Dump {
            regions: frame::peek_regions(),
            counters: tracker::peek_counters(),
            queue: tracker::peek_queue(),
            pass: self.pass,
        }
    }

    /// Managed bytes of one region, whoever holds them.
    pub fn bytes(&self, address: u64, length: u64) -> Answer {
        if self.booted && ground::managed(address, length) {
            Answer::Bytes(physical::bytes(address, length).to_vec())
        } else {
            Answer::Off("bytes: the range is not inside one region".into())
        }
    }

    fn perform(&mut self, call: &Call) -> Answer {
        match *call {
            Call::Alloc { size, align, options } => {
                granted(tracker::try_alloc_frame(flags(options), layout(size, align)).map(sized))
            }
            Call::Take { size, align, options } => {
                granted(tracker::try_alloc_split_frames(flags(options), layout(size, align)))
            }
            Call::Split(address) => granted(Some(frame::split_frame(frame_at(address)))),
            Call::Free(address) => on_frame(address, tracker::free_frame),
            Call::Zero(address) => on_frame(address, |frame| frame.zero()),
            Call::Dirty(address) => on_frame(address, |frame| frame.set_not_zero()),
            Call::Queue(address) => on_frame(address, |frame| tracker::reclaim([frame])),
            Call::Find(address) => find(address),
            Call::Fill { address, offset, length, byte } => {
                write(address, offset, length, |bytes| bytes.fill(byte))
            }
            Call::Write { address, offset, ref bytes } => {
                write(address, offset, bytes.len() as u64, |place| place.copy_from_slice(bytes))
            }
            Call::Read { address, offset, length } => {
                Answer::Bytes(physical::bytes(address + offset, length).to_vec())
            }
            Call::Copy { target, target_offset, source, source_offset, length } => {
                frame_at(target).copy_contents_from(
                    frame_at(source),
                    target_offset as usize,
                    source_offset as usize,
                    length as usize,
                );
                Answer::Done { address: target, bytes: length }
            }
            Call::Pcopy { target, target_offset, source, length } => {
                frame_at(target).copy_contents_from_physaddr(
                    target_offset as usize,
                    PhysAddr::new(source).unwrap(),
                    length as usize,
                );
                Answer::Done { address: target, bytes: length }
            }
            Call::Round => self.round(),
            Call::Lend(pages) => {
                tracker::track_page_pager(pages as usize);
                outstanding()
            }
            Call::Back(pages) => {
                tracker::untrack_page_pager(pages as usize);
                outstanding()
            }
            Call::Low => Answer::Done { address: 0, bytes: tracker::is_low_mem().into() },
            Call::Stats => {
                tracker::print_tracker_stats();
                Answer::Text(console::take_lines())
            }
        }
    }

    /// Lets the reclaim thread take one step, and reports worked rounds and
    /// frames freed in the pass.
    fn round(&mut self) -> Answer {
        // A pass that ends on a low store has met the limit: its last round
        // worked, but the kernel breaks off before the trace of it.
        let low = tracker::is_low_mem();
        let (rounds, freed) = match coroutine::resume() {
            Step::Worked { rounds, count } => {
                assert!(low && rounds == self.pass.0, "the rounds that the driver saw");
                self.pass = (rounds + 1, count);
                self.pass
            }
            Step::Ended { count } => {
                let rounds = self.pass.0 + u64::from(low);
                assert!(!low || rounds == LAST_ROUND, "a pass ended early");
                self.pass = (0, 0);
                (rounds, count)
            }
        };
        Answer::Done { address: rounds, bytes: freed }
    }
}

fn memory_region(entry: &Entry) -> MemoryRegion {
    MemoryRegion {
        // Safety: entries that aren't UsableRam may hold any number, and the
        // kernel doesn't look at it.
        start: unsafe { PhysAddr::new_unchecked(entry.start) },
        length: entry.length as usize,
        kind: match entry.kind {
            0 => MemoryRegionKind::UsableRam,
            1 => MemoryRegionKind::Reserved,
            _ => MemoryRegionKind::BootloaderReserved,
        },
    }
}

fn layout(size: u64, align: u64) -> Layout {
    Layout::from_size_align(size as usize, align as usize).unwrap()
}

/// The options of common ground; WAIT_OK isn't among them.
fn flags(options: u8) -> FrameAllocFlags {
    let none = FrameAllocFlags::empty();
    let zeroed = if options & ZEROED != 0 { FrameAllocFlags::ZEROED } else { none };
    let kernel = if options & KERNEL != 0 { FrameAllocFlags::KERNEL } else { none };
    zeroed | kernel
}

fn frame_at(address: u64) -> FrameRef {
    frame::get_frame(PhysAddr::new(address).unwrap()).expect("a managed address")
}

fn sized(frame: FrameRef) -> (FrameRef, usize) {
    (frame, frame.size())
}

fn granted(frame: Option<(FrameRef, usize)>) -> Answer {
    match frame {
        Some((frame, size)) => {
            Answer::Done { address: frame.start_address().raw(), bytes: size as u64 }
        }
        None => Answer::Refused(9),
    }
}

fn on_frame(address: u64, act: impl FnOnce(FrameRef)) -> Answer {
    let frame = frame_at(address);
    act(frame);
    granted(Some(sized(frame)))
}

fn find(address: u64) -> Answer {
    match frame::get_frame(PhysAddr::new(address).unwrap()) {
        Some(frame) if frame.get_flags().contains(PhysicalFrameFlags::ADMITTED) => {
            granted(Some(sized(frame)))
        }
        Some(frame) => granted(Some((frame, 0))),
        None => Answer::Refused(11),
    }
}

/// Neither `fill` nor `write` is the kernel's. This is what a holder does there:
/// it writes through the map of physical memory and says so.
fn write(address: u64, offset: u64, length: u64, act: impl FnOnce(&mut [u8])) -> Answer {
    act(physical::bytes(address + offset, length));
    frame_at(address).set_not_zero();
    Answer::Done { address, bytes: length }
}

fn outstanding() -> Answer {
    Answer::Done { address: 0, bytes: tracker::get_outstanding_pager_pages() as u64 }
}
