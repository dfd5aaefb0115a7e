//! The shapes of the sound tables that are damaged: what rows they have, how
//! their frames are cut and marked, and how long the loans are.

use crate::random::Random;
use crate::state::{size, table_pages, PAGE};

/// Pages below 2^40, and the most that a store has.
pub const LAST: u64 = 1 << 28;
pub const MOST: u64 = 1_048_576;

/// How many damages a table gets.
#[derive(Clone, Copy, PartialEq)]
pub enum Extent {
    /// Every bit of the records, and every number.
    Every,
    /// Bits and records by chance.
    Chance,
    /// A few, as each takes milliseconds. Such shapes come last.
    Few,
}

#[derive(Clone)]
pub struct Shape {
    pub name: &'static str,
    pub extent: Extent,
    /// The start and the pages of each row, tables included.
    pub rows: Vec<(u64, u64)>,
    /// In a hundred: a larger frame is taken where it fits; a frame is held; it
    /// is marked KERNEL; it is marked ZEROED.
    pub large: u64,
    pub held: u64,
    pub kernel: u64,
    pub zeroed: u64,
    /// Whether lists are shuffled, or in page order as boot makes them.
    pub shuffled: bool,
    /// Pages for which the loans have more room than they need.
    pub spare: usize,
}

/// A shape of each kind.
pub fn shapes(random: &mut Random) -> Vec<Shape> {
    let small = Shape {
        name: "16 pages",
        extent: Extent::Every,
        rows: vec![(random.below(LAST - 17) * PAGE, 17)],
        large: 100,
        held: 40,
        kernel: 50,
        zeroed: 50,
        shuffled: true,
        spare: 0,
    };
    let one_list = Shape { name: "16 pages on one list", held: 0, zeroed: 0, ..small.clone() };
    let chance = Shape { extent: Extent::Chance, ..small.clone() };
    let few = Shape { extent: Extent::Few, ..small.clone() };
    // Nine pages, and all that a store has besides, up to 2^40.
    let most = vec![(9 * PAGE, 9), ((LAST - (MOST - 9)) * PAGE, MOST - 9)];
    let apart = vec![large_row(random, 1, 2, 1), (0, 9), large_row(random, 1, 1, 4)];
    vec![
        small.clone(),
        one_list.clone(),
        Shape { name: "16 pages all held", held: 100, ..small.clone() },
        Shape { name: "16 pages as booted", kernel: 0, shuffled: false, ..one_list },
        Shape { name: "16 pages, junk behind", spare: 3, ..small.clone() },
        Shape {
            name: "rows from 0 and to 2^40",
            rows: vec![((LAST - 7) * PAGE, 7), (0, 6)],
            ..small.clone()
        },
        Shape { name: "two rows", rows: rows(random, 2, 12), ..small.clone() },
        Shape { name: "eight rows", rows: rows(random, 8, 4), ..small.clone() },
        Shape { name: "no row", rows: vec![], spare: 2, ..small },
        Shape { name: "2 MiB frames", rows: vec![large_row(random, 1, 3, 1)], ..chance.clone() },
        Shape {
            name: "2 MiB frames, few unheld",
            rows: vec![large_row(random, 1, 2, 1)],
            held: 90,
            zeroed: 10,
            ..chance.clone()
        },
        Shape { name: "2 MiB frames in three rows", rows: apart, large: 60, ..chance.clone() },
        Shape {
            name: "a long shuffled list",
            rows: vec![(random.below(LAST / 2) * PAGE, 400)],
            large: 0,
            held: 0,
            zeroed: 0,
            ..chance
        },
        Shape {
            name: "a 1 GiB frame",
            rows: vec![large_row(random, 2, 1, 1)],
            held: 20,
            spare: 1,
            ..few.clone()
        },
        Shape { name: "the most pages", rows: most, held: 10, ..few },
    ]
}

/// So many rows of up to so many managed pages, apart or touching, in no order
/// of addresses.
fn rows(random: &mut Random, count: usize, most: u64) -> Vec<(u64, u64)> {
    let mut page = random.below(LAST / 2);
    let mut rows = Vec::new();
    for _ in 0..count {
        let pages = random.within(2, most + 1);
        rows.push((page * PAGE, pages));
        page += pages + random.below(2) * random.below(1000);
    }
    random.shuffle(&mut rows);
    rows
}

/// A row with so many frames of a level, and a few small ones before and behind
/// them. It lies within 4 GiB of address space, counted by 4 GiB.
fn large_row(random: &mut Random, level: u32, frames: u64, quarter: u64) -> (u64, u64) {
    let before = random.within(1, 9);
    let managed = before + frames * size(level) + random.within(1, 9);
    let pages = (managed..).find(|&pages| pages - table_pages(pages) == managed).unwrap();
    let edge = quarter * MOST + random.within(1, 2) * size(level);
    ((edge - before - table_pages(pages)) * PAGE, pages)
}
