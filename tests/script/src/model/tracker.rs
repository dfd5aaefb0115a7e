//! The counters that follow from the frames, low memory and the statistics.

use super::{
    region::{Frame, Region, PAGE},
    store::Store,
};

impl Store {
    /// "the sum of pages, tables included".
    pub fn total(&self) -> u64 {
        self.regions.iter().map(|region| region.pages).sum()
    }

    /// The held pages granted with KERNEL, or those without.
    pub fn held(&self, kernel: bool) -> u64 {
        let counts = |frame: &&Frame| frame.held && frame.kernel == kernel;
        let pages = |region: &Region| {
            region.frames.values().filter(counts).map(|frame| frame.size() / PAGE).sum::<u64>()
        };
        self.regions.iter().map(pages).sum()
    }

    pub fn idle(&self) -> u64 {
        self.total() - self.held(true) - self.held(false)
    }

    /// In the order of the Rust's struct.
    pub fn counters(&self) -> [u64; 9] {
        let [kernel, page, idle] = [self.held(true), self.held(false), self.idle()];
        let (outstanding, waiting) = (self.outstanding, 0);
        let Store { allocated, freed, reclaimed, .. } = *self;
        [kernel, page, idle, self.total(), allocated, freed, reclaimed, waiting, outstanding]
    }

    /// "Low means page_data ≥ idle / 2 (rounded down) or idle < 2 × kernel_used."
    pub fn low(&self) -> bool {
        let idle = self.idle();
        self.held(false) >= idle / 2 || idle < 2 * self.held(true)
    }

    /// `print_tracker_stats`'s five lines.
    pub fn stats(&self) -> String {
        let [kernel, page, idle, total, allocated, freed, reclaimed, waiting, outstanding] =
            self.counters();
        let share = |part: u64| (part * 100).checked_div(total).unwrap_or(0);
        let lines = [
            "memory status (in frames):".into(),
            format!(
                "       total: {total} -- a: {allocated} f: {freed} r: {reclaimed}, {waiting} waiters"
            ),
            format!("        idle: {idle} {}%", share(idle)),
            format!("      kernel: {kernel} {}%", share(kernel)),
            format!("        page: {page} {}% ({outstanding} loaned)", share(page)),
        ];
        lines.map(|line: String| line + "\n").concat()
    }
}
