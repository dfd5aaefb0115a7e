//! One region: its frames by address, and its six lists.

use std::collections::BTreeMap;

/// Bytes of a page.
pub const PAGE: u64 = 4096;

/// Bytes of a frame at each level, each also its alignment.
pub const SIZES: [u64; 3] = [4096, 2_097_152, 1_073_741_824];

/// Bytes of the Rust's `Frame`, of which the tables are made.
const FRAME: u64 = 32;

#[derive(Clone, Copy)]
pub struct Frame {
    pub level: usize,
    pub held: bool,
    pub zeroed: bool,
    pub kernel: bool,
}

impl Frame {
    pub fn size(&self) -> u64 {
        SIZES[self.level]
    }
}

pub struct Region {
    /// Rounded up.
    pub start: u64,
    /// Tables included.
    pub pages: u64,
    /// The number of its first managed page among those of all regions.
    pub base: u64,
    /// Held or listed, by their addresses.
    pub frames: BTreeMap<u64, Frame>,
    /// Addresses front to back: dirty and zeroed at each level.
    pub lists: [Vec<u64>; 6],
}

/// The place of a list among the six.
pub fn slot(level: usize, zeroed: bool) -> usize {
    2 * level + usize::from(zeroed)
}

impl Region {
    pub fn empty(start: u64, pages: u64, base: u64) -> Region {
        Region { start, pages, base, frames: BTreeMap::new(), lists: Default::default() }
    }

    /// "table pages = ceil(32 × pages / 4096)".
    pub fn tables(&self) -> u64 {
        (FRAME * self.pages).div_ceil(PAGE)
    }

    pub fn managed(&self) -> u64 {
        self.pages - self.tables()
    }

    /// The first managed address.
    pub fn first(&self) -> u64 {
        self.start + PAGE * self.tables()
    }

    pub fn end(&self) -> u64 {
        self.start + PAGE * self.pages
    }

    pub fn manages(&self, address: u64) -> bool {
        self.first() <= address && address < self.end()
    }

    /// The number of the page that an address is in.
    pub fn page(&self, address: u64) -> u64 {
        self.base + (address - self.first()) / PAGE
    }

    /// "From the first managed page up, each frame takes the highest level whose
    /// alignment and remaining space fit. Each is pushed on the back of its dirty
    /// list."
    pub fn laid_out(mut self) -> Region {
        let mut at = self.first();
        while at < self.end() {
            let left = self.end() - at;
            let fits = |level: &usize| at % SIZES[*level] == 0 && left >= SIZES[*level];
            let level = [2, 1, 0].into_iter().find(fits).expect("a page always fits");
            self.list(at, Frame { level, held: false, zeroed: false, kernel: false });
            at += SIZES[level];
        }
        self
    }

    /// Pushes a frame on the back of its list.
    pub fn list(&mut self, address: u64, frame: Frame) {
        self.frames.insert(address, Frame { held: false, ..frame });
        self.lists[slot(frame.level, frame.zeroed)].push(address);
    }

    /// Takes a frame of a level off its list, the back one of the first list that
    /// has any, or else splits a larger one.
    pub fn search(&mut self, level: usize, kinds: &[bool]) -> Option<u64> {
        if level == SIZES.len() {
            return None;
        }
        let mut lists = kinds.iter().map(|&zeroed| slot(level, zeroed));
        if let Some(list) = lists.find(|&list| !self.lists[list].is_empty()) {
            return self.lists[list].pop();
        }
        let larger = self.search(level + 1, kinds)?;
        self.split_listed(larger);
        self.search(level, kinds)
    }

    /// "For a listed frame, children 1 to 511 are pushed, then child 0; they
    /// inherit ZEROED only."
    fn split_listed(&mut self, address: u64) {
        let Frame { level, zeroed, .. } = self.frames[&address];
        let child = Frame { level: level - 1, held: false, zeroed, kernel: false };
        for place in (1..512).chain([0]) {
            self.list(address + place * child.size(), child);
        }
    }

    /// "For a held frame (`split_and_keep`), children are held"; "Split pieces
    /// keep KERNEL". "At level 0: same frame, 4,096, no change." Gives the old
    /// size.
    pub fn split_held(&mut self, address: u64) -> u64 {
        let frame = self.frames[&address];
        if frame.level > 0 {
            let child = Frame { level: frame.level - 1, ..frame };
            let places = (0..512).map(|place| address + place * child.size());
            self.frames.extend(places.map(|place| (place, child)));
        }
        frame.size()
    }
}
