//! Ranges in frames.

use super::{
    maker::Maker,
    view::{Held, View},
};
use crate::random::Random;

/// An offset and a length in a frame: all of it, one of its ends, nothing, or
/// some bytes of it.
pub fn inside(random: &mut Random, size: u64) -> (u64, u64) {
    let some = random.within(1..=64);
    match random.weighted(&[(0, 20), (1, 15), (2, 15), (3, 10), (4, 25), (5, 15)]) {
        0 => (0, size),
        1 => (0, random.within(0..=size)),
        2 => {
            let length = random.within(0..=size);
            (size - length, length)
        }
        3 => (random.within(0..=size), 0),
        4 => (random.within(0..=size - some), some),
        _ => {
            let offset = random.within(0..=size);
            (offset, random.within(0..=size - offset))
        }
    }
}

/// An offset and a length that leave the frame, or come close to it.
pub fn about(random: &mut Random, size: u64) -> (u64, u64) {
    let some = random.within(0..=size);
    match random.within(0..=11) {
        0 => (size, 0),
        1 => (size + 1, 0),
        2 => (size, 1),
        3 => (size - 1, 1),
        4 => (size - 1, 2),
        5 => (0, size + 1),
        6 => (some, size - some),
        7 => (some, size - some + 1),
        8 => (u64::MAX, random.within(0..=2)),
        9 => (random.within(0..=2), u64::MAX),
        10 => (1 << 63, 1 << 63),
        _ => (u64::MAX - some, random.within(0..=size)),
    }
}

impl Maker<'_> {
    /// A copy on common ground.
    pub fn copy_line(&mut self, view: &View) -> Option<String> {
        let (target, source) = self.two_frames(view)?;
        let (to, from, length) = if target.address == source.address {
            self.two_apart(target.size)
        } else if source.zeroed && !target.zeroed {
            // From a zeroed frame, only whole frames are on common ground.
            let room = source.size.checked_sub(target.size)?;
            (0, self.random.within(0..=room), target.size)
        } else {
            let (offset, length) = inside(&mut self.random, target.size);
            let length = length.min(source.size);
            (offset, self.random.within(0..=source.size - length), length)
        };
        self.written.push(target.address);
        Some(format!("copy,{},{to},{},{from},{length}", target.address, source.address))
    }

    /// A target and a source, marked or not, or the same frame.
    fn two_frames(&mut self, view: &View) -> Option<(Held, Held)> {
        let marked = |frame: &Held| frame.zeroed;
        let unmarked = |frame: &Held| !frame.zeroed;
        Some(match self.random.weighted(&[(0, 40), (1, 35), (2, 15), (3, 10)]) {
            0 => (self.held(view)?, self.one_of(view, |_| true)?),
            1 => (self.one_of(view, unmarked)?, self.one_of(view, marked)?),
            2 => (self.one_of(view, marked)?, self.one_of(view, marked)?),
            _ => {
                let frame = self.held(view)?;
                (frame, frame)
            }
        })
    }

    /// Two ranges of a frame that don't overlap.
    fn two_apart(&mut self, size: u64) -> (u64, u64, u64) {
        let length = self.random.within(0..=size / 2);
        let low = self.random.within(0..=size - 2 * length);
        let high = self.random.within(low + length..=size - length);
        if self.random.percent(50) {
            (low, high, length)
        } else {
            (high, low, length)
        }
    }

    /// A copy from a physical address, on common ground.
    pub fn pcopy_line(&mut self, view: &View) -> Option<String> {
        let target = self.held(view)?;
        let region = *self.random.pick(&view.regions)?;
        let before = self.random.within(0..=8);
        let written = self.random.pick(&self.written);
        let near = written.map(|at| at.saturating_sub(before));
        let source = match near.filter(|at| (region.first..region.end).contains(at)) {
            Some(at) if self.random.percent(50) => at,
            _ => self.random.within(region.first..=region.end - 1),
        };
        let (offset, length) = inside(&mut self.random, target.size);
        let apart = (target.address + offset).abs_diff(source);
        let length = length.min(region.end - source).min(apart);
        self.written.push(target.address);
        Some(format!("pcopy,{},{offset},{source},{length}", target.address))
    }
}
