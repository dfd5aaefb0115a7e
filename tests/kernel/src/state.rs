//! The state's words as they are to be, from the model's store. Written from
//! the head of crates/words/specs/Words.antt, and from nothing else.

use script::model::{Region, Store};

const VERSION: u64 = 2;
const ROW: usize = 11;

/// How many words have a meaning; those behind are left as they are.
const MEANT: usize = 101;

/// The words of a store that have a meaning.
pub fn words(store: &Store) -> [u64; MEANT] {
    let mut words = [0; MEANT];
    words[0] = VERSION | (store.regions.len() as u64) << 32;
    for (row, region) in store.regions.iter().enumerate() {
        words[1 + ROW * row..][..ROW].copy_from_slice(&row_words(region));
    }
    words[89] = store.queued as u64;
    words[90] = store.pass.rounds;
    words[91] = store.pass.freed;
    words[92..].copy_from_slice(&store.counters());
    words
}

/// Start, pages, and of each level the ends of its two lists and their counts,
/// two numbers to a word.
fn row_words(region: &Region) -> [u64; ROW] {
    let mut row = [0; ROW];
    (row[0], row[1]) = (region.start, region.pages);
    let number = |frame: Option<&u64>| frame.map_or(0, |&frame| region.page(frame) + 1);
    let ends = |list: &[u64]| number(list.first()) | number(list.last()) << 32;
    for (level, lists) in region.lists.chunks_exact(2).enumerate() {
        let words = &mut row[2 + 3 * level..][..3];
        (words[0], words[1]) = (ends(&lists[0]), ends(&lists[1]));
        words[2] = count(&lists[0]) | count(&lists[1]) << 32;
    }
    row
}

fn count(list: &[u64]) -> u64 {
    list.len() as u64
}
