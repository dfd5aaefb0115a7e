//! What scripts are lent.

use crate::{
    case::{Contents, Lent},
    model::{kept, managed, Entry, PAGE},
    random::Random,
};

const RECORD: u64 = 16;

/// Pages of memory that a random script is lent at most.
const MOST_LENT: u64 = 4096;

/// Loans that suffice, with a rest.
pub fn generous(random: &mut Random, map: &[Entry], queue: usize) -> Lent {
    let (records, memory) = needed(map);
    let rest = |random: &mut Random| random.weighted(&[(0, 50), (1, 20), (40, 30)]);
    Lent {
        records: records + rest(random),
        memory: memory + rest(random),
        queue,
        spare: random.weighted(&[(0, 50), (1, 20), (700, 30)]),
        contents: Contents::Noise(random.next()),
    }
}

/// Loans of any length, some a byte short, some empty.
pub fn any(random: &mut Random, map: &[Entry]) -> Lent {
    let (records, memory) = needed(map);
    let mut lent = generous(random, map, 0);
    match random.within(0..=49) {
        0 => lent.records = records.saturating_sub(1),
        1 => lent.memory = memory.saturating_sub(1),
        2 => lent.records = 0,
        3 => lent.memory = 0,
        4 => lent.records = random.within(0..=records as u64) as usize,
        5 => lent.memory = random.within(0..=memory as u64) as usize,
        _ => {}
    }
    let few = random.within(0..=20) as usize;
    lent.queue = random.weighted(&[(0, 8), (1, 6), (2, 6), (64, 40), (few, 20), (150, 20)]);
    let drop = random.within(2..=2000) as isize;
    let spare = lent.spare;
    lent.spare = random.weighted(&[(spare, 94), (-1, 3), (-drop, 2), (isize::MIN / 2, 1)]);
    lent
}

/// Bytes of records and memory that a map needs; for one that needs more than is
/// lent here, or can't be rounded, some.
fn needed(map: &[Entry]) -> (usize, usize) {
    let is_near = |entry: &&Entry| entry.start.saturating_add(entry.length) <= 1 << 40;
    let near: Vec<Entry> = map.iter().filter(is_near).copied().collect();
    let pages = managed(&kept(&near));
    let pages = if pages > MOST_LENT { 16 } else { pages };
    ((pages * RECORD) as usize, (pages * PAGE) as usize)
}
