//! Calls on common ground.

use super::{layouts, maker::Maker, ranges, view::View};
use crate::model::PAGE;

/// How often each call is made, in scripts of four kinds: of everything; until
/// nothing is left to grant; with the queue and rounds; with contents.
pub const WEIGHTS: [(&str, [u64; 4]); 16] = [
    ("alloc", [20, 45, 28, 12]),
    ("take", [4, 4, 3, 2]),
    ("split", [5, 4, 3, 3]),
    ("free", [12, 14, 5, 6]),
    ("zero", [10, 14, 6, 10]),
    ("dirty", [3, 1, 1, 4]),
    ("find", [5, 2, 2, 2]),
    ("queue", [6, 3, 18, 2]),
    ("fill", [8, 2, 2, 21]),
    ("copy", [7, 2, 2, 20]),
    ("pcopy", [5, 1, 2, 10]),
    ("round", [6, 2, 16, 2]),
    ("lend", [2, 1, 3, 1]),
    ("back", [2, 1, 2, 1]),
    ("low", [3, 2, 5, 1]),
    ("stats", [2, 1, 3, 1]),
];

impl Maker<'_> {
    /// A call on common ground, for a script of a kind.
    pub fn ground_line(&mut self, kind: usize) -> Option<String> {
        let view = self.view()?;
        if let Some(line) = self.follow(&view) {
            return Some(line);
        }
        let weights = WEIGHTS.map(|(op, weights)| (op, weights[kind]));
        loop {
            let op = self.random.weighted(&weights);
            if let Some(line) = self.call(op, &view) {
                return Some(line);
            }
        }
    }

    /// A large frame is often zeroed once it is granted, and then freed or split,
    /// and a small zeroed one freed, as that fills the zeroed lists.
    fn follow(&mut self, view: &View) -> Option<String> {
        match self.last_accepted()? {
            ("alloc", address, bytes) if bytes > PAGE => {
                self.random.percent(35).then(|| format!("zero,{address}"))
            }
            ("zero", address, bytes) => {
                let frame = *view.held.iter().find(|frame| frame.address == address)?;
                let share = if bytes > PAGE { 55 } else { 35 };
                if !frame.queued && self.random.percent(share) {
                    return Some(format!("free,{address}"));
                }
                let splits = bytes > PAGE && !frame.kernel && self.random.percent(40);
                splits.then(|| format!("split,{address}"))
            }
            _ => None,
        }
    }

    /// None where the store has nothing that the call could name.
    fn call(&mut self, op: &str, view: &View) -> Option<String> {
        Some(match op {
            "alloc" => layouts::alloc(&mut self.random, view),
            "take" => layouts::take(&mut self.random, view),
            "split" => format!("split,{}", self.splittable(view)?),
            "free" => format!("free,{}", self.freeable(view)?),
            "queue" if view.room == 0 => return None,
            "queue" => format!("queue,{}", self.freeable(view)?),
            "zero" | "dirty" => format!("{op},{}", self.held(view)?.address),
            "find" => format!("find,{}", self.anywhere(view)),
            "fill" => self.fill_line(view)?,
            "copy" => self.copy_line(view)?,
            "pcopy" => self.pcopy_line(view)?,
            "lend" if self.random.percent(8) => format!("lend,{}", self.random.next()),
            "lend" => format!("lend,{}", self.random.within(0..=40)),
            "back" => format!("back,{}", self.random.within(0..=view.outstanding)),
            "stats" if view.regions.is_empty() => return None,
            _ => op.into(),
        })
    }

    fn fill_line(&mut self, view: &View) -> Option<String> {
        let frame = self.held(view)?;
        let (offset, length) = ranges::inside(&mut self.random, frame.size);
        let byte = if self.random.percent(30) { 0 } else { self.random.within(0..=255) };
        self.written.push(frame.address);
        Some(format!("fill,{},{offset},{length},{byte}", frame.address))
    }

    fn splittable(&mut self, view: &View) -> Option<u64> {
        let large = self.random.percent(80);
        let frame = self.one_of(view, |frame| !frame.kernel && (!large || frame.size > PAGE));
        Some(frame?.address)
    }

    /// Marked and unmarked ones as often.
    fn freeable(&mut self, view: &View) -> Option<u64> {
        let marked = self.random.percent(50);
        let frame = self.one_of(view, |frame| !frame.queued && frame.zeroed == marked);
        let frame = frame.or_else(|| self.one_of(view, |frame| !frame.queued));
        Some(frame?.address)
    }

    /// An address below 2^40: managed, in a table, beside a region, or far off.
    fn anywhere(&mut self, view: &View) -> u64 {
        let most = (1 << 40) - 1;
        let Some(region) = self.random.pick(&view.regions).copied() else {
            return self.random.within(0..=most);
        };
        let address = match self.random.weighted(&[(0, 55), (1, 10), (2, 10), (3, 10), (4, 15)]) {
            0 => self.random.within(region.first..=region.end - 1),
            1 => self.random.within(region.start..=region.first - 1),
            2 => region.end + self.random.within(0..=2 * PAGE),
            3 => region.start.saturating_sub(self.random.within(1..=2 * PAGE)),
            _ => self.random.next() >> self.random.within(24..=60),
        };
        address.min(most)
    }
}
