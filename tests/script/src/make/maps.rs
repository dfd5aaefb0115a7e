//! Random boot maps. Those on common ground have up to three kept regions, most
//! of a few pages, some with frames of 2 MiB, with odd starts and lengths, and
//! entries among them that are skipped. The others have entries that boot
//! refuses or skips for reasons of their own.

use crate::{
    model::{kept, managed, Entry, PAGE},
    random::Random,
    shape::{self, base, place, Numbers, Shape, LAST_PAGE, USABLE},
};

/// The small frames before and after large ones.
const FEW: [(u64, u64); 5] = [(0, 38), (1, 29), (2, 19), (7, 10), (90, 4)];

/// How large the regions of a map are.
#[derive(Clone, Copy, PartialEq, Debug)]
pub enum Extent {
    /// At most so many managed pages together.
    Within(u64),
    /// Up to some forty pages each.
    Few,
    /// Hundreds of small frames.
    Many,
    /// With frames of 2 MiB.
    Large,
}

/// A map on common ground.
pub fn on_ground(random: &mut Random, extent: Extent) -> Vec<Entry> {
    loop {
        let map = drawn(random, extent);
        match extent {
            Extent::Within(pages) if managed(&kept(&map)) > pages => continue,
            _ => return map,
        }
    }
}

fn drawn(random: &mut Random, extent: Extent) -> Vec<Entry> {
    let mut map = Vec::new();
    if random.percent(97) || extent == Extent::Large {
        let count = random.weighted(&[(1, 40), (2, 35), (3, 25)]);
        let large = random.within(0..=count - 1);
        let mut free = base(random);
        for region in 0..count {
            let shape = shape(random, extent, region == large);
            let first = place(random, &shape, free);
            map.push(kept_entry(random, first, shape.pages));
            free = first + shape.pages;
        }
        // A region's number is its place in the map, not its address.
        if random.percent(30) {
            random.shuffle(&mut map);
        }
    }
    for _ in 0..random.weighted(&[(0, 55), (1, 25), (2, 15), (5, 5)]) {
        let entry = skipped_entry(random);
        insert(random, &mut map, entry);
    }
    map
}

fn insert(random: &mut Random, map: &mut Vec<Entry>, entry: Entry) {
    let place = random.within(0..=map.len() as u64) as usize;
    map.insert(place, entry);
}

/// One region of a map has what its extent asks for.
fn shape(random: &mut Random, extent: Extent, chosen: bool) -> Shape {
    match extent {
        Extent::Large if chosen => shape::large(random, &FEW),
        Extent::Many if chosen => Shape { pages: random.within(120..=300), aligned: None },
        Extent::Within(_) => shape::small(random, &[((2, 6), 30), ((7, 17), 70)]),
        _ => shape::small(random, &[((2, 6), 45), ((7, 16), 35), ((17, 40), 20)]),
    }
}

fn entry(numbers: Numbers) -> Entry {
    let Numbers { start, length, kind } = numbers;
    Entry { start, length, kind }
}

fn skipped_entry(random: &mut Random) -> Entry {
    entry(shape::skipped_entry(random))
}

fn kept_entry(random: &mut Random, first: u64, pages: u64) -> Entry {
    entry(shape::kept_entry(random, first, pages))
}

/// A map with some of what boot refuses or what only it skips, laid over a map on
/// common ground.
pub fn any(random: &mut Random, extent: Extent) -> Vec<Entry> {
    let mut map = on_ground(random, extent);
    for _ in 0..random.weighted(&[(1, 70), (2, 20), (3, 10)]) {
        match random.weighted(&[(0, 20), (1, 20), (2, 25), (3, 20), (4, 15)]) {
            0 => lengthen(random, &mut map),
            1 => {
                let entry = far_entry(random);
                insert(random, &mut map, entry);
            }
            2 => {
                let entry = beside(random, &map);
                insert(random, &mut map, entry);
            }
            3 => {
                let entry = gap_entry(random);
                insert(random, &mut map, entry);
            }
            _ => {
                let entry = vast_entry(random);
                insert(random, &mut map, entry);
            }
        }
    }
    map
}

/// Up to 7, 8 or 9 entries and more.
fn lengthen(random: &mut Random, map: &mut Vec<Entry>) {
    let count = random.within(7..=11) as usize;
    while map.len() < count {
        let entry = skipped_entry(random);
        insert(random, map, entry);
    }
}

/// An entry that ends about 2^40, or past 2^64.
fn far_entry(random: &mut Random) -> Entry {
    let limit = LAST_PAGE * PAGE;
    let (start, length) = match random.within(0..=7) {
        0 => (limit, 0),
        1 => (limit + 1, 0),
        2 => (limit - 1, 1),
        3 => (limit - 1, 2),
        4 => (limit - 2 * PAGE, 2 * PAGE + random.within(0..=1)),
        5 => (u64::MAX, random.within(0..=2)),
        6 => (random.within(1..=PAGE), u64::MAX),
        _ => (random.next() >> random.within(0..=30), random.next() >> random.within(0..=30)),
    };
    Entry { start, length, kind: USABLE }
}

/// An entry on or beside one of the map: the same, one that touches it, or shares
/// odd bytes or pages with it.
fn beside(random: &mut Random, map: &[Entry]) -> Entry {
    let Some(&entry) = random.pick(map) else {
        return gap_entry(random);
    };
    let end = entry.start.wrapping_add(entry.length);
    let start = match random.within(0..=5) {
        0 => entry.start,
        1 => end,
        2 => end.wrapping_sub(random.within(1..=PAGE)),
        3 => end / PAGE * PAGE,
        4 => (end / PAGE * PAGE).wrapping_sub(random.within(1..=2) * PAGE),
        _ => entry.start.wrapping_sub(random.within(0..=3) * PAGE),
    };
    let length = if random.percent(30) { entry.length } else { random.within(0..=5 * PAGE) };
    Entry { start, length, kind: USABLE }
}

/// An entry about as long as its gap up to a page, and a page or two more.
fn gap_entry(random: &mut Random) -> Entry {
    let start = random.within(0..=LAST_PAGE / 256) * PAGE + random.within(0..=PAGE - 1);
    let gap = start.next_multiple_of(PAGE) - start;
    let about = (gap + random.within(0..=2) * PAGE).saturating_add_signed(drift(random));
    Entry { start, length: about, kind: USABLE }
}

fn drift(random: &mut Random) -> i64 {
    random.within(0..=4) as i64 - 2
}

/// An entry of about 4 GiB.
fn vast_entry(random: &mut Random) -> Entry {
    let start = random.within(0..=LAST_PAGE / 2) * PAGE + random.weighted(&[(0, 70), (1, 30)]);
    let pages = random.within(1_048_570..=1_048_580);
    Entry { start, length: pages * PAGE, kind: USABLE }
}
