//! The store over lent slices.

use core::{alloc::Layout, fmt};

use crate::{
    error::accepted,
    ffi::{self, Counters, Entry, Lent},
    layout::{COUNTERS_AT, FRAME_SIZE, MAX_REGIONS, PASS_AT, QUEUED_AT, ROWS_AT, ROW_WORDS},
    Error, Frame, FrameAllocFlags, MemoryRegion, Pass, PhysAddr,
};

/// A physical-frame store over slices that its owner lends: the state's words, a
/// record of 16 bytes and a page of memory for each managed page, and the places of
/// the reclaim queue.
///
/// Each call tests all that was lent, and is refused [`Torn`](Error::Torn) where it
/// is not whole; the slices are borrowed for as long as the store lives, so that
/// safe code can't write them elsewhere. A refused call changes nothing. Calls take
/// time in proportion to the managed pages, as each tests all records.
pub struct FrameStore<'a> {
    words: &'a mut [u64],
    records: &'a mut [u8],
    memory: &'a mut [u8],
    queue: &'a mut [u64],
}

impl<'a> FrameStore<'a> {
    /// The store of a boot map; nothing is held or queued. What the slices hold
    /// before is of no matter. There have to be [`WORDS`](crate::WORDS) words, and
    /// [`RECORD_BYTES`](crate::RECORD_BYTES) bytes of records and
    /// [`FRAME_SIZE`](crate::FRAME_SIZE) of memory for each managed page.
    ///
    /// Refused [`LongMap`](Error::LongMap), [`FarAddress`](Error::FarAddress),
    /// [`Overlap`](Error::Overlap), [`TooManyPages`](Error::TooManyPages) or
    /// [`ShortLoan`](Error::ShortLoan).
    pub fn boot(
        words: &'a mut [u64],
        records: &'a mut [u8],
        memory: &'a mut [u8],
        queue: &'a mut [u64],
        map: &[MemoryRegion],
    ) -> Result<FrameStore<'a>, Error> {
        // Of a map that is too long no entry is read, so one too many stands for all.
        let mut entries = [Entry::default(); MAX_REGIONS + 1];
        for (entry, region) in entries.iter_mut().zip(map) {
            *entry = entry_of(region);
        }
        let map = entries.get(..map.len()).unwrap_or(&entries);
        let mut store = FrameStore { words, records, memory, queue };
        store.call(|lent| ffi::boot(map, lent))?;
        Ok(store)
    }

    /// The store that an earlier one left in these slices. Refused
    /// [`Torn`](Error::Torn) where they are not whole.
    pub fn resume(
        words: &'a mut [u64],
        records: &'a mut [u8],
        memory: &'a mut [u8],
        queue: &'a mut [u64],
    ) -> Result<FrameStore<'a>, Error> {
        let store = FrameStore { words, records, memory, queue };
        store.audit()?;
        Ok(store)
    }

    /// Whether all that was lent is whole; if not, [`Torn`](Error::Torn).
    pub fn audit(&self) -> Result<(), Error> {
        accepted(ffi::audit(self.words, self.records, self.memory.len(), self.queue.len()))
    }

    /// Grants a frame for a layout.
    ///
    /// Refused [`NoLevel`](Error::NoLevel), [`NoFrame`](Error::NoFrame) or
    /// [`MustWait`](Error::MustWait).
    pub fn try_alloc_frame(
        &mut self,
        flags: FrameAllocFlags,
        layout: Layout,
    ) -> Result<Frame, Error> {
        let [size, align, flags] = asked(flags, layout);
        self.frame(|lent| ffi::alloc(lent, size, align, flags))
    }

    /// Grants a frame for a layout, and splits it into 512 held frames if it is
    /// larger than a page. Gives its address and its size before that.
    ///
    /// Refused as [`try_alloc_frame`](Self::try_alloc_frame).
    pub fn try_alloc_split_frames(
        &mut self,
        flags: FrameAllocFlags,
        layout: Layout,
    ) -> Result<Frame, Error> {
        let [size, align, flags] = asked(flags, layout);
        self.frame(|lent| ffi::take(lent, size, align, flags))
    }

    /// Splits a held frame into 512 held frames; a page stays as it is. Gives its
    /// address and its size before that.
    ///
    /// Refused [`Outside`](Error::Outside), [`NoFrameStart`](Error::NoFrameStart)
    /// or [`NotHeld`](Error::NotHeld), as all calls on a held frame are.
    pub fn split_frame(&mut self, frame: PhysAddr) -> Result<Frame, Error> {
        self.frame(|lent| ffi::split(lent, frame.raw()))
    }

    /// Takes back a held frame.
    pub fn free_frame(&mut self, frame: PhysAddr) -> Result<Frame, Error> {
        self.frame(|lent| ffi::free(lent, frame.raw()))
    }

    /// The page of an address, with the size of the frame that starts there, or 0
    /// where none does. Refused [`Outside`](Error::Outside).
    pub fn get_frame(&mut self, address: PhysAddr) -> Result<Frame, Error> {
        self.frame(|lent| ffi::find(lent, address.raw()))
    }

    /// Fills a held frame with zeros and marks it as zeroed.
    pub fn zero_frame(&mut self, frame: PhysAddr) -> Result<Frame, Error> {
        self.frame(|lent| ffi::zero(lent, frame.raw()))
    }

    /// Takes the mark of a zeroed frame off a held one; its bytes stay.
    pub fn set_not_zero(&mut self, frame: PhysAddr) -> Result<Frame, Error> {
        self.frame(|lent| ffi::dirty(lent, frame.raw()))
    }

    /// Fills a part of a held frame with a byte and takes its mark off. Refused
    /// [`PastTheEnd`](Error::PastTheEnd) besides.
    pub fn fill(
        &mut self,
        frame: PhysAddr,
        offset: usize,
        len: usize,
        byte: u8,
    ) -> Result<(), Error> {
        let (offset, len) = (offset as u64, len as u64);
        self.call(|lent| ffi::fill(lent, frame.raw(), offset, len, byte.into()))?;
        Ok(())
    }

    /// Writes bytes into a held frame and takes its mark off. Refused
    /// [`PastTheEnd`](Error::PastTheEnd) besides.
    pub fn write(&mut self, frame: PhysAddr, offset: usize, bytes: &[u8]) -> Result<(), Error> {
        self.call(|lent| ffi::write(lent, frame.raw(), offset as u64, bytes))?;
        Ok(())
    }

    /// A part of a held frame, where it stands in the lent memory. Refused
    /// [`PastTheEnd`](Error::PastTheEnd) besides.
    pub fn read(&mut self, frame: PhysAddr, offset: usize, len: usize) -> Result<&[u8], Error> {
        let (offset, len) = (offset as u64, len as u64);
        let [place, length] = self.call(|lent| ffi::read(lent, frame.raw(), offset, len))?;
        let part = self.memory.get(place as usize..).and_then(|rest| rest.get(..length as usize));
        part.ok_or(Error::Torn)
    }

    /// Copies `len` bytes from `soff` of a held frame to `doff` of another, or of
    /// the same, as if all was read first. From a zeroed frame nothing is read: the
    /// target's part becomes zeros. Refused [`PastTheEnd`](Error::PastTheEnd)
    /// besides.
    pub fn copy_contents_from(
        &mut self,
        frame: PhysAddr,
        other: PhysAddr,
        doff: usize,
        soff: usize,
        len: usize,
    ) -> Result<(), Error> {
        let (frame, other) = (frame.raw(), other.raw());
        let (doff, soff, len) = (doff as u64, soff as u64, len as u64);
        self.call(|lent| ffi::copy(lent, frame, doff, other, soff, len))?;
        Ok(())
    }

    /// Copies `len` managed bytes, whoever holds them, to `doff` of a held frame.
    /// They have to be of one region, else [`PastTheEnd`](Error::PastTheEnd).
    pub fn copy_contents_from_physaddr(
        &mut self,
        frame: PhysAddr,
        doff: usize,
        other: PhysAddr,
        len: usize,
    ) -> Result<(), Error> {
        let (doff, len) = (doff as u64, len as u64);
        self.call(|lent| ffi::pcopy(lent, frame.raw(), doff, other.raw(), len))?;
        Ok(())
    }

    /// Lets later reclaim rounds free a held frame. Refused
    /// [`QueueFull`](Error::QueueFull) besides.
    pub fn queue_frame(&mut self, frame: PhysAddr) -> Result<Frame, Error> {
        self.frame(|lent| ffi::queue(lent, frame.raw()))
    }

    /// One turn of the kernel's reclaim loop. Where memory is low it frees up to 100
    /// queued frames, the last first; else, or with the round limit, it ends the
    /// pass. Gives the pass's counts; [`pass`](Self::pass) is at 0 once it has
    /// ended.
    pub fn reclaim(&mut self) -> Result<Pass, Error> {
        let [rounds, freed] = self.call(ffi::round)?;
        Ok(Pass { rounds: rounds as usize, freed: freed as usize })
    }

    /// Counts pages as lent to the pager, and gives how many are out.
    pub fn track_page_pager(&mut self, count: usize) -> Result<usize, Error> {
        let [_, out] = self.call(|lent| ffi::lend(lent, count as u64))?;
        Ok(out as usize)
    }

    /// Counts pages as given back by the pager, and gives how many are out. Refused
    /// [`PagerLow`](Error::PagerLow) where there are fewer.
    pub fn untrack_page_pager(&mut self, count: usize) -> Result<usize, Error> {
        let [_, out] = self.call(|lent| ffi::back(lent, count as u64))?;
        Ok(out as usize)
    }

    /// Whether memory is low, so that a reclaim round would work.
    pub fn is_low_mem(&mut self) -> Result<bool, Error> {
        let [_, low] = self.call(ffi::low)?;
        Ok(low != 0)
    }

    /// The five lines of the kernel's statistics, written to the front of a buffer
    /// of at least [`STATS_BYTES`](crate::STATS_BYTES); a shorter one is refused
    /// [`Torn`](Error::Torn).
    pub fn print_tracker_stats<'t>(&mut self, text: &'t mut [u8]) -> Result<&'t str, Error> {
        let [_, length] = self.call(|lent| ffi::stats(lent, text))?;
        let lines = text.get(..length as usize).ok_or(Error::Torn)?;
        core::str::from_utf8(lines).map_err(|_| Error::Torn)
    }

    /// The nine counters, as they stand in the words. Nothing is tested.
    pub fn stats(&self) -> Counters {
        let counter = |place: usize| self.word(COUNTERS_AT + place) as usize;
        Counters {
            kernel_used: counter(0),
            page_data: counter(1),
            idle: counter(2),
            total: counter(3),
            allocated: counter(4),
            freed: counter(5),
            reclaimed: counter(6),
            waiting: counter(7),
            pager_outstanding: counter(8),
        }
    }

    /// The pass of reclaim rounds under way, at 0 where none is. Nothing is tested.
    pub fn pass(&self) -> Pass {
        Pass { rounds: self.word(PASS_AT) as usize, freed: self.word(PASS_AT + 1) as usize }
    }

    /// How many places of the queue are taken. Nothing is tested.
    pub fn queued(&self) -> usize {
        self.word(QUEUED_AT) as usize
    }

    /// The bytes that the store manages: those of its regions less their tables.
    /// Nothing is tested.
    pub fn managed_bytes(&self) -> usize {
        let used = (self.word(0) >> 32) as usize;
        let pages = |row: usize| self.word(ROWS_AT + ROW_WORDS * row + 1) as usize;
        (0..used.min(MAX_REGIONS)).map(|row| managed_of(pages(row))).fold(0, usize::saturating_add)
    }

    fn word(&self, place: usize) -> u64 {
        self.words.get(place).copied().unwrap_or(0)
    }

    /// Makes a call: the answer's two numbers, or the refusal.
    fn call(&mut self, call: impl FnOnce(Lent<'_>) -> u32) -> Result<[u64; 2], Error> {
        let mut answer = [0; 2];
        accepted(call(Lent {
            words: self.words,
            records: self.records,
            memory: self.memory,
            queue: self.queue,
            answer: &mut answer,
        }))?;
        Ok(answer)
    }

    /// Makes a call whose answer is a frame.
    fn frame(&mut self, call: impl FnOnce(Lent<'_>) -> u32) -> Result<Frame, Error> {
        let [address, size] = self.call(call)?;
        Ok(Frame { address: PhysAddr::new(address), size: size as usize })
    }
}

impl fmt::Debug for FrameStore<'_> {
    /// The counters alone: the loans may be large.
    fn fmt(&self, f: &mut fmt::Formatter<'_>) -> fmt::Result {
        f.debug_struct("FrameStore").field("stats", &self.stats()).finish_non_exhaustive()
    }
}

/// The numbers of a grant.
fn asked(flags: FrameAllocFlags, layout: Layout) -> [u64; 3] {
    [layout.size() as u64, layout.align() as u64, flags.bits().into()]
}

pub(crate) fn entry_of(region: &MemoryRegion) -> Entry {
    Entry { start: region.start.raw(), length: region.length as u64, kind: region.kind as u64 }
}

/// The bytes of a region's pages less those of its tables, 32 bytes for each page.
/// The pages of a whole state are few enough for every sum here.
fn managed_of(pages: usize) -> usize {
    let tables = pages.div_ceil(FRAME_SIZE / 32);
    pages.saturating_sub(tables).saturating_mul(FRAME_SIZE)
}
