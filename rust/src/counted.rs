//! The store with its counters lent apart.

use core::fmt;

use crate::{
    error::accepted,
    ffi::{self, Counters, Entry, Lent},
    store::entry_of,
    Error, MemoryRegion, MAX_REGIONS,
};

/// The calls of a [`CountedStore`], with their numbers in order. A grant takes
/// SIZE, ALIGN, FLAGS.
#[repr(u64)]
#[derive(Clone, Copy, Debug, PartialEq, Eq, Hash)]
pub enum Op {
    /// A grant.
    Alloc = 0,
    /// A grant, split into 512 frames above a page.
    Take = 1,
    /// FRAME is split.
    Split = 2,
    /// FRAME is taken back.
    Free = 3,
    /// FRAME is filled with zeros and marked.
    Zero = 4,
    /// FRAME loses its mark.
    Dirty = 5,
    /// The page of ADDRESS.
    Find = 6,
    /// FRAME may be reclaimed.
    Queue = 7,
    /// FRAME, OFFSET, LEN, BYTE.
    Fill = 8,
    /// FRAME, OFFSET, SOURCE, SOURCE_OFFSET, LEN.
    Copy = 9,
    /// FRAME, OFFSET, SOURCE, LEN.
    Pcopy = 10,
    /// A reclaim round.
    Round = 11,
    /// COUNT pages are lent to the pager.
    Lend = 12,
    /// COUNT pages are given back.
    Back = 13,
    /// Whether memory is low.
    Low = 14,
    /// FRAME, OFFSET: the bytes are written there.
    Write = 15,
    /// FRAME, OFFSET, LEN: where they stand in the lent memory.
    Read = 16,
    /// The statistics, to the front of the bytes.
    Stats = 17,
    /// START, LENGTH, KIND of each entry of the map, 0 for usable memory.
    Boot = 18,
}

/// The same store for a kernel that keeps the nine counters as a struct of its own,
/// which other code reads. The words are as many as ever, [`WORDS`](crate::WORDS);
/// their own counters are neither read nor written.
pub struct CountedStore<'a> {
    counters: &'a mut Counters,
    words: &'a mut [u64],
    records: &'a mut [u8],
    memory: &'a mut [u8],
    queue: &'a mut [u64],
}

impl<'a> CountedStore<'a> {
    /// The store of a boot map, as [`FrameStore::boot`](crate::FrameStore::boot) has
    /// it. What the counters hold before is of no matter either.
    pub fn boot(
        counters: &'a mut Counters,
        words: &'a mut [u64],
        records: &'a mut [u8],
        memory: &'a mut [u8],
        queue: &'a mut [u64],
        map: &[MemoryRegion],
    ) -> Result<CountedStore<'a>, Error> {
        // Of a map that is too long no entry is read, so one too many stands for all.
        let mut numbers = [0; 3 * (MAX_REGIONS + 1)];
        for (three, region) in numbers.chunks_exact_mut(3).zip(map) {
            let Entry { start, length, kind } = entry_of(region);
            for (number, of) in three.iter_mut().zip([start, length, kind]) {
                *number = of;
            }
        }
        let numbers = numbers.get(..3 * map.len().min(MAX_REGIONS + 1)).unwrap_or(&numbers);
        let mut store = CountedStore { counters, words, records, memory, queue };
        store.call(Op::Boot, numbers, &mut [])?;
        Ok(store)
    }

    /// The store that an earlier one left. Refused [`Torn`](Error::Torn) where what
    /// is lent is not whole.
    pub fn resume(
        counters: &'a mut Counters,
        words: &'a mut [u64],
        records: &'a mut [u8],
        memory: &'a mut [u8],
        queue: &'a mut [u64],
    ) -> Result<CountedStore<'a>, Error> {
        let mut store = CountedStore { counters, words, records, memory, queue };
        store.call(Op::Low, &[], &mut [])?;
        Ok(store)
    }

    /// Makes a call. Numbers that are missing count as 0. The bytes are those to
    /// write or, at least [`STATS_BYTES`](crate::STATS_BYTES), room for the
    /// statistics; no other call looks at them. Gives the answer's two numbers, for
    /// most calls a frame's address and its size.
    pub fn call(&mut self, op: Op, numbers: &[u64], bytes: &mut [u8]) -> Result<[u64; 2], Error> {
        let mut answer = [0; 2];
        let lent = Lent {
            words: self.words,
            records: self.records,
            memory: self.memory,
            queue: self.queue,
            answer: &mut answer,
        };
        accepted(ffi::call(self.counters, lent, op as u64, numbers, bytes))?;
        Ok(answer)
    }

    /// The counters.
    pub fn counters(&self) -> &Counters {
        self.counters
    }
}

impl fmt::Debug for CountedStore<'_> {
    /// The counters alone: the loans may be large.
    fn fmt(&self, f: &mut fmt::Formatter<'_>) -> fmt::Result {
        f.debug_struct("CountedStore").field("counters", self.counters).finish_non_exhaustive()
    }
}
