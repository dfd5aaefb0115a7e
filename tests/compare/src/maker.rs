//! Makes up a call that is on common ground in the present state and meets
//! frames that are held, queued or marked.

use oracle::{Answer, Call};

use crate::{
    map::PAGE,
    random::Random,
    record::{managed, Recorder},
    view::{Held, View},
};

const SMALL: u64 = PAGE;
const MEDIUM: u64 = 512 * SMALL;
const LARGE: u64 = 512 * MEDIUM;

const ZEROED: u8 = 1;
const KERNEL: u8 = 2;

/// What is to be made up.
#[derive(Clone, Copy)]
pub enum Op {
    Alloc,
    Take,
    Split,
    Free,
    Zero,
    Dirty,
    Find,
    Queue,
    Fill,
    Write,
    Read,
    Copy,
    Pcopy,
    Round,
    Lend,
    Back,
    Low,
    Stats,
}

/// Makes up one call.
pub struct Maker<'a> {
    pub random: &'a mut Random,
    pub view: &'a View,
    pub recorder: &'a Recorder,
}

impl Maker<'_> {
    /// A large frame is often zeroed once it is granted, and a zeroed frame
    /// freed, as that fills the zeroed lists.
    pub fn follow(&mut self) -> Option<Call> {
        match (self.recorder.calls.last()?, self.recorder.answers.last()?) {
            (Call::Alloc { .. }, &Answer::Done { address, bytes }) if bytes > SMALL => {
                self.random.percent(35).then_some(Call::Zero(address))
            }
            (&Call::Zero(address), &Answer::Done { bytes, .. }) => {
                let share = if bytes > SMALL { 65 } else { 35 };
                let queued = self.recorder.dump.queue.contains(&address);
                (!queued && self.random.percent(share)).then_some(Call::Free(address))
            }
            _ => None,
        }
    }

    /// None where the state has nothing that the call could name.
    pub fn make(&mut self, op: Op) -> Option<Call> {
        Some(match op {
            Op::Alloc => {
                let share = if self.view.medium_listed { 20 } else { 3 };
                // A small grant then splits the large frame.
                let split = self.view.zeroed_medium_listed && self.random.percent(40);
                let size = if split { SMALL } else { self.size(share) };
                let options = if split { ZEROED } else { self.options() };
                Call::Alloc { size, align: self.align(size), options }
            }
            Op::Take => {
                let share = if self.view.medium_listed { 70 } else { 10 };
                let size = self.size(share);
                let options = self.options() & !KERNEL;
                Call::Take { size, align: self.align(size), options }
            }
            Op::Split => Call::Split(self.splittable()?.address),
            Op::Free => Call::Free(self.freeable()?.address),
            Op::Queue => Call::Queue(self.freeable()?.address),
            Op::Zero => Call::Zero(self.held()?.address),
            Op::Dirty => Call::Dirty(self.held()?.address),
            Op::Find => Call::Find(self.anywhere()),
            Op::Fill => {
                let frame = self.held()?;
                let (offset, length) = self.range(frame.size);
                let byte = if self.random.percent(30) { 0 } else { self.random.next() as u8 };
                Call::Fill { address: frame.address, offset, length, byte }
            }
            Op::Write => {
                let frame = self.held()?;
                let bytes = self.bytes();
                let offset = self.random.within(0..=frame.size - bytes.len() as u64);
                Call::Write { address: frame.address, offset, bytes }
            }
            Op::Read => self.read()?,
            Op::Copy => self.copy()?,
            Op::Pcopy => self.pcopy()?,
            Op::Round => Call::Round,
            Op::Lend if self.random.percent(8) => Call::Lend(self.random.next()),
            Op::Lend => Call::Lend(self.random.within(0..=40)),
            Op::Back => Call::Back(self.random.within(0..=self.view.outstanding)),
            Op::Low => Call::Low,
            Op::Stats if self.view.total == 0 => return None,
            Op::Stats => Call::Stats,
        })
    }

    fn size(&mut self, medium_share: u64) -> u64 {
        if self.random.percent(medium_share) {
            MEDIUM
        } else if self.random.percent(2) {
            LARGE
        } else {
            SMALL
        }
    }

    /// Any power of two up to the size.
    fn align(&mut self, size: u64) -> u64 {
        if self.random.percent(80) {
            size
        } else {
            size >> self.random.within(0..=size.trailing_zeros().into())
        }
    }

    fn options(&mut self) -> u8 {
        let share = if self.view.zeroed_listed { 50 } else { 30 };
        let zeroed = if self.random.percent(share) { ZEROED } else { 0 };
        let kernel = if self.random.percent(25) { KERNEL } else { 0 };
        zeroed | kernel
    }

    fn one_of(&mut self, wanted: impl Fn(&Held) -> bool) -> Option<Held> {
        let frames: Vec<_> = self.view.held.iter().filter(|frame| wanted(frame)).copied().collect();
        self.random.pick(&frames).copied()
    }

    /// A held frame. Where a large one was split, its pieces are many, and the
    /// others are taken first now and then.
    fn held(&mut self) -> Option<Held> {
        if self.random.percent(40) {
            let last = self.recorder.written.last().cloned();
            let frame =
                self.one_of(|frame| last.as_ref().is_some_and(|range| frame.contains(range.start)));
            if frame.is_some() {
                return frame;
            }
        }
        if self.random.percent(40) {
            let frame = self.one_of(|frame| frame.size > SMALL || frame.zeroed);
            if frame.is_some() {
                return frame;
            }
        }
        self.one_of(|_| true)
    }

    fn splittable(&mut self) -> Option<Held> {
        if self.random.percent(80) {
            self.one_of(|frame| !frame.kernel && frame.size > SMALL)
        } else {
            self.one_of(|frame| !frame.kernel)
        }
    }

    /// Marked and unmarked ones as often.
    fn freeable(&mut self) -> Option<Held> {
        let marked = self.random.percent(50);
        let frame = self.one_of(|frame| !frame.queued && frame.zeroed == marked);
        frame.or_else(|| self.one_of(|frame| !frame.queued))
    }

    /// An address below 2^40: managed, in a table, beside a region, or far off.
    fn anywhere(&mut self) -> u64 {
        let regions = &self.recorder.dump.regions;
        let largest = regions.iter().max_by_key(|region| region.pages);
        let region = if self.random.percent(50) { largest } else { self.random.pick(regions) };
        let Some(region) = region else {
            return self.random.within(0..=(1 << 40) - 1);
        };
        let end = region.start + region.pages * PAGE;
        match self.random.weighted(&[(0, 55), (1, 10), (2, 10), (3, 10), (4, 15)]) {
            0 => self.random.within(region.first..=end - 1),
            1 => self.random.within(region.start..=region.first - 1),
            2 => self.random.within(end..=end + 2 * PAGE).min((1 << 40) - 1),
            3 => region.start.saturating_sub(self.random.within(1..=2 * PAGE)),
            _ => self.random.next() >> self.random.within(24..=60),
        }
    }

    /// An offset and a length in a frame: all of it, one of its ends, nothing,
    /// or some bytes of it.
    fn range(&mut self, size: u64) -> (u64, u64) {
        let some = self.random.within(1..=64);
        match self.random.weighted(&[(0, 20), (1, 15), (2, 15), (3, 10), (4, 25), (5, 15)]) {
            0 => (0, size),
            1 => (0, self.random.within(0..=size)),
            2 => {
                let length = self.random.within(0..=size);
                (size - length, length)
            }
            3 => (self.random.within(0..=size), 0),
            4 => (self.random.within(0..=size - some), some),
            _ => {
                let offset = self.random.within(0..=size);
                (offset, self.random.within(0..=size - offset))
            }
        }
    }

    fn bytes(&mut self) -> Vec<u8> {
        let zeros = self.random.percent(20);
        let count = self.random.within(0..=12);
        (0..count).map(|_| if zeros { 0 } else { self.random.next() as u8 }).collect()
    }

    /// Most reads are at an end of what was written.
    fn read(&mut self) -> Option<Call> {
        let most = if self.random.percent(90) { 12 } else { 200 };
        let written = self.random.pick(&self.recorder.written).cloned();
        let edge =
            written.map(|range| if self.random.percent(50) { range.start } else { range.end });
        let at = edge.filter(|_| self.random.percent(75)).map(|at| at.saturating_sub(4));
        let there = at.and_then(|at| Some((self.one_of(|frame| frame.contains(at))?, at)));
        let (frame, at) = match there {
            Some(there) => there,
            None => {
                let frame = self.held()?;
                (frame, frame.address + self.random.within(0..=frame.size))
            }
        };
        let offset = at - frame.address;
        let length = self.random.within(0..=most).min(frame.size - offset);
        Some(Call::Read { address: frame.address, offset, length })
    }

    fn copy(&mut self) -> Option<Call> {
        let (target, source) = match self.random.weighted(&[(0, 40), (1, 35), (2, 15), (3, 10)]) {
            0 => (self.held()?, self.one_of(|_| true)?),
            1 => (self.one_of(|frame| !frame.zeroed)?, self.one_of(|frame| frame.zeroed)?),
            2 => (self.one_of(|frame| frame.zeroed)?, self.one_of(|frame| frame.zeroed)?),
            _ => {
                let frame = self.held()?;
                (frame, frame)
            }
        };
        let (target_offset, source_offset, length) = if target.address == source.address {
            let length = self.random.within(0..=target.size / 2);
            let low = self.random.within(0..=target.size - 2 * length);
            let high = self.random.within(low + length..=target.size - length);
            if self.random.percent(50) {
                (low, high, length)
            } else {
                (high, low, length)
            }
        } else if source.zeroed && !target.zeroed {
            // From a zeroed frame, only whole frames are on common ground.
            let room = source.size.checked_sub(target.size)?;
            (0, self.random.within(0..=room), target.size)
        } else {
            let (offset, length) = self.range(target.size);
            let length = length.min(source.size);
            (offset, self.random.within(0..=source.size - length), length)
        };
        let (target, source) = (target.address, source.address);
        Some(Call::Copy { target, target_offset, source, source_offset, length })
    }

    fn pcopy(&mut self) -> Option<Call> {
        let target = self.held()?;
        let regions = managed(&self.recorder.dump);
        let region = self.random.pick(&regions)?;
        let before = self.random.within(0..=8);
        let written = self.random.pick(&self.recorder.written);
        let near = written.map(|range| range.start.saturating_sub(before));
        let source = match near.filter(|at| region.contains(at)) {
            Some(at) if self.random.percent(50) => at,
            _ => self.random.within(region.start..=region.end - 1),
        };
        let (target_offset, length) = self.range(target.size);
        let apart = (target.address + target_offset).abs_diff(source);
        let length = length.min(region.end - source).min(apart);
        Some(Call::Pcopy { target: target.address, target_offset, source, length })
    }
}
