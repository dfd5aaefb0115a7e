//! Random regions of a boot map: how many pages, where they lie, and the entry
//! that becomes one; and entries that are skipped. Numbers alone, so that those
//! who make lists of calls and those who make scripts both use it.

use crate::random::Random;

const PAGE: u64 = 4096;

/// Pages of a 2 MiB frame.
const LARGE: u64 = 512;

/// Table pages are one for each so many pages, or part of them.
const PAGES_OF_A_TABLE: u64 = 128;

/// The highest page number plus 1, 2^40 bytes.
pub const LAST_PAGE: u64 = 1 << 28;

pub const USABLE: u64 = 0;

/// A region's pages, and where one of them, counted from the first, must be
/// aligned to a 2 MiB frame.
pub struct Shape {
    pub pages: u64,
    pub aligned: Option<u64>,
}

/// The numbers of an entry.
pub struct Numbers {
    pub start: u64,
    pub length: u64,
    pub kind: u64,
}

/// The first page from which regions are placed.
pub fn base(random: &mut Random) -> u64 {
    match random.weighted(&[(0, 5), (1, 85), (2, 10)]) {
        0 => 0,
        1 => random.within(1..=LAST_PAGE / 256),
        _ => LAST_PAGE - random.within(5000..=8000),
    }
}

/// So many pages, as one of the ranges has them.
pub fn small(random: &mut Random, ranges: &[((u64, u64), u64)]) -> Shape {
    let range = random.weighted(ranges);
    Shape { pages: random.within(range.0..=range.1), aligned: None }
}

/// One or two 2 MiB frames with, as a rule, few small ones before and after, which
/// are soon granted, so that a grant then splits.
pub fn large(random: &mut Random, few: &[(u64, u64)]) -> Shape {
    let frames = random.weighted(&[(1, 80), (2, 20)]);
    let (before, after) = (random.weighted(few), random.weighted(few));
    let managed = before + frames * LARGE + after;
    let mut tables = 0;
    while tables != (tables + managed).div_ceil(PAGES_OF_A_TABLE) {
        tables = (tables + managed).div_ceil(PAGES_OF_A_TABLE);
    }
    Shape { pages: tables + managed, aligned: Some(tables + before) }
}

/// The region's first page, at the next free one or a little above.
pub fn place(random: &mut Random, shape: &Shape, free: u64) -> u64 {
    let gap = random.weighted(&[(0, 30), (1, 30), (9, 40)]);
    match shape.aligned {
        None => free + gap,
        Some(page) => (free + gap + page).next_multiple_of(LARGE) - page,
    }
}

/// An entry that becomes these pages, with some bytes too few for a page on
/// either side.
pub fn kept_entry(random: &mut Random, first: u64, pages: u64) -> Numbers {
    let odd =
        |random: &mut Random| if random.percent(50) { random.within(1..=PAGE - 1) } else { 0 };
    let before = if first == 0 { 0 } else { odd(random) };
    let length = before + pages * PAGE + odd(random);
    Numbers { start: first * PAGE - before, length, kind: USABLE }
}

/// An entry of another kind, with any numbers, or one with a page or less, which
/// may lie over others.
pub fn skipped_entry(random: &mut Random) -> Numbers {
    if random.percent(60) {
        let kind = random.within(1..=2);
        let any = |random: &mut Random| random.next() >> random.within(0..=63);
        return Numbers { start: any(random), length: any(random), kind };
    }
    let start = random.within(0..=(LAST_PAGE - 4) * PAGE);
    let gap = start.next_multiple_of(PAGE) - start;
    Numbers { start, length: gap + random.within(0..=2 * PAGE - 1), kind: USABLE }
}
