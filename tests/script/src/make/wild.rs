//! Calls off common ground, among them some on it.

use super::{layouts, maker::Maker, ranges, view::View};
use crate::model::PAGE;

impl Maker<'_> {
    pub fn wild_line(&mut self) -> Option<String> {
        let view = self.view()?;
        let ops = [("grant", 20), ("frame", 40), ("fill", 12), ("copy", 14), ("pcopy", 12)];
        Some(match self.random.weighted(&ops) {
            "grant" => layouts::any(&mut self.random),
            "frame" => {
                let ops = ["split", "free", "zero", "dirty", "find", "queue", "queue"];
                let op = *self.random.pick(&ops).expect("an op");
                format!("{op},{}", self.address(&view))
            }
            "fill" => {
                let address = self.address(&view);
                let (offset, length) = self.range(view.size_at(address));
                format!("fill,{address},{offset},{length},{}", self.random.within(0..=255))
            }
            "copy" => self.wild_copy(&view),
            _ => self.wild_pcopy(&view),
        })
    }

    /// The pager's loan about its ends, and calls that name nothing.
    pub fn pager_line(&mut self) -> Option<String> {
        let outstanding = self.view()?.outstanding;
        Some(match self.random.within(0..=6) {
            0 => format!("lend,{}", u64::MAX),
            1 => format!("lend,{}", self.random.within(0..=3)),
            2 => format!("back,{outstanding}"),
            3 => format!("back,{}", outstanding.wrapping_add(1)),
            4 => format!("back,{}", self.random.next() >> self.random.within(0..=63)),
            5 => "low".into(),
            _ => "stats".into(),
        })
    }

    fn range(&mut self, size: u64) -> (u64, u64) {
        if self.random.percent(50) {
            ranges::inside(&mut self.random, size)
        } else {
            ranges::about(&mut self.random, size)
        }
    }

    /// Any address, most of them such as calls may name by mistake.
    fn address(&mut self, view: &View) -> u64 {
        let sorts = [(0, 45), (1, 10), (2, 10), (3, 10), (4, 8), (5, 8), (6, 4), (7, 5)];
        let sort = self.random.weighted(&sorts);
        self.of_sort(sort, view).unwrap_or_else(|| self.far())
    }

    fn of_sort(&mut self, sort: u64, view: &View) -> Option<u64> {
        let region = self.random.pick(&view.regions).copied();
        Some(match sort {
            0 => self.held(view)?.address,
            1 => self.random.pick(&view.listed)?.0,
            2 => *self.random.pick(&view.queue)?,
            // Inside of a frame, on a page's edge or off it.
            3 => self.inside_frame(view)?,
            4 => {
                let region = region?;
                self.random.within(region.start..=region.first)
            }
            5 => region?.end.saturating_add_signed(self.random.within(0..=2) as i64 - 1),
            6 => region?.start.saturating_sub(self.random.within(0..=PAGE)),
            _ => return None,
        })
    }

    fn inside_frame(&mut self, view: &View) -> Option<u64> {
        let held = view.held.iter().map(|frame| (frame.address, frame.size));
        let frames: Vec<_> = held.chain(view.listed.iter().copied()).collect();
        let (start, size) = *self.random.pick(&frames)?;
        let at = start + self.random.within(0..=size - 1);
        Some(if self.random.percent(50) { at / PAGE * PAGE } else { at })
    }

    fn far(&mut self) -> u64 {
        let ends = [0, 1, (1 << 40) - 1, 1 << 40, 1 << 63, u64::MAX - 4095, u64::MAX];
        match self.random.percent(50) {
            true => *self.random.pick(&ends).expect("an end"),
            false => self.random.next() >> self.random.within(0..=63),
        }
    }

    fn wild_copy(&mut self, view: &View) -> String {
        let target = self.address(view);
        let same = self.random.percent(30);
        let source = if same { target } else { self.address(view) };
        let (to, length) = self.range(view.size_at(target));
        let from = match self.random.within(0..=4) {
            0 => self.range(view.size_at(source)).0,
            1 => view.size_at(source).saturating_sub(length),
            2 => view.size_at(source).saturating_sub(length).saturating_add(1),
            // Often over the target.
            _ => to.saturating_add_signed(self.random.within(0..=20) as i64 - 10),
        };
        format!("copy,{target},{to},{source},{from},{length}")
    }

    fn wild_pcopy(&mut self, view: &View) -> String {
        let target = self.address(view);
        let (to, length) = self.range(view.size_at(target));
        let end = self.random.pick(&view.regions).map_or(0, |region| region.end);
        let source = match self.random.within(0..=5) {
            0 => end.saturating_sub(length),
            1 => end.saturating_sub(length).saturating_add(1),
            2 => end.saturating_sub(1),
            // Often over the target.
            3 => {
                let place = target.saturating_add(to);
                place.saturating_add_signed(self.random.within(0..=20) as i64 - 10)
            }
            _ => self.address(view),
        };
        format!("pcopy,{target},{to},{source},{length}")
    }
}
