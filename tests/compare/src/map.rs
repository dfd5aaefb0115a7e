//! Random boot maps on common ground: up to three kept regions, most of a few
//! pages, some with frames of 2 MiB, with odd starts and lengths, and entries
//! among them that are skipped.

use oracle::Entry;

use crate::{
    random::Random,
    shape::{self, Numbers},
};

pub const PAGE: u64 = 4096;

/// The small frames before and after large ones.
const FEW: [(u64, u64); 4] = [(0, 40), (1, 30), (2, 20), (7, 10)];

/// The pages of a region without large ones.
const PAGES: [((u64, u64), u64); 4] =
    [((2, 6), 45), ((7, 16), 35), ((17, 40), 18), ((100, 300), 2)];

pub fn random(random: &mut Random) -> Vec<Entry> {
    let mut map = Vec::new();
    if random.percent(97) {
        let kept = random.weighted(&[(1, 40), (2, 35), (3, 25)]);
        let large = large_regions(random, kept);
        let mut free = shape::base(random);
        for region in 0..kept {
            let shape = match large.contains(&region) {
                true => shape::large(random, &FEW),
                false => shape::small(random, &PAGES),
            };
            let first = shape::place(random, &shape, free);
            map.push(entry(shape::kept_entry(random, first, shape.pages)));
            free = first + shape.pages;
        }
        // A region's number is its place in the map, not its address.
        if random.percent(30) {
            random.shuffle(&mut map);
        }
    }
    for _ in 0..random.weighted(&[(0, 55), (1, 25), (2, 15), (5, 5)]) {
        let place = random.within(0..=map.len() as u64) as usize;
        map.insert(place, entry(shape::skipped_entry(random)));
    }
    map
}

/// The regions with large frames. These take the checker long: about a third of
/// the lists has any, mostly the first region, whose small frames are soon
/// granted, now and then two.
fn large_regions(random: &mut Random, kept: u64) -> Vec<u64> {
    if !random.percent(35) {
        return Vec::new();
    }
    let count = random.weighted(&[(1, 85), (2, 15)]);
    let first = random.within(0..=2) * random.within(0..=1);
    (first..first + count).map(|region| region % kept).collect()
}

fn entry(numbers: Numbers) -> Entry {
    let Numbers { start, length, kind } = numbers;
    Entry { start, length, kind: kind as u8 }
}
