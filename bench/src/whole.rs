//! Whole stores of one row, as the words and records that the audit reads.

pub struct Store {
    pub words: Vec<u64>,
    pub records: Vec<u8>,
    pub memory_len: usize,
    pub queue_len: usize,
}

/// The words of a state: a version and how many rows are in use, a row of eleven
/// words for each region, three for the queue and the pass, the counters, and words
/// without a meaning.
const WORDS: usize = 512;
const VERSION: u64 = 2;
const ROW: usize = 1;
const COUNTERS: usize = 92;

impl Store {
    /// No row.
    pub fn empty() -> Store {
        let mut words = vec![0; WORDS];
        words[0] = VERSION;
        Store { words, records: vec![], memory_len: 0, queue_len: 64 }
    }

    /// So many managed pages from a place where a frame of 1 GiB may start, all
    /// frames of one level and listed in page order.
    pub fn listed(managed: usize, level: usize) -> Store {
        let size = 512usize.pow(level as u32);
        let order = (0..managed).step_by(size).collect();
        Store::with(managed, level, order)
    }

    /// Small frames, listed in an order of no meaning.
    pub fn shuffled(managed: usize) -> Store {
        let mut order: Vec<usize> = (0..managed).collect();
        let mut state = 1u64;
        for last in (1..managed).rev() {
            // xorshift64*
            state ^= state >> 12;
            state ^= state << 25;
            state ^= state >> 27;
            let number = state.wrapping_mul(0x2545f4914f6cdd1d) >> 32;
            order.swap(last, number as usize % (last + 1));
        }
        Store::with(managed, 0, order)
    }

    /// Small frames, all held.
    pub fn held(managed: usize) -> Store {
        let mut store = Store::with(managed, 0, Vec::new());
        for page in 0..managed {
            store.records[page * 16] = 1 + 2;
        }
        store.words[COUNTERS + 1] = managed as u64;
        store
    }

    fn with(managed: usize, level: usize, order: Vec<usize>) -> Store {
        let mut store = Store::empty();
        let tables = |pages: usize| pages.div_ceil(128);
        let pages = (managed..).find(|&pages| pages - tables(pages) == managed).unwrap();
        // The first managed page is at 8 GiB.
        store.words[0] = VERSION | 1 << 32;
        store.words[ROW] = (2 * 512 * 512 * 4 - tables(pages) as u64) * 4096;
        store.words[ROW + 1] = pages as u64;
        store.records = vec![0; managed * 16];
        let number = |place: Option<usize>| {
            place.and_then(|place| order.get(place)).map_or(0, |&page| page as u32 + 1)
        };
        for (place, &page) in order.iter().enumerate() {
            let numbers = [1, level as u32, number(place.checked_sub(1)), number(Some(place + 1))];
            for (k, number) in numbers.into_iter().enumerate() {
                let at = page * 16 + 4 * k;
                store.records[at..at + 4].copy_from_slice(&number.to_le_bytes());
            }
        }
        // The dirty list of a level is the first of two that stand in three words.
        let dirty = ROW + 2 + 3 * level;
        let back = number(order.len().checked_sub(1));
        store.words[dirty] = u64::from(number(Some(0))) | u64::from(back) << 32;
        store.words[dirty + 2] = order.len() as u64;
        store.words[COUNTERS + 2] =
            (tables(pages) + order.len() * 512usize.pow(level as u32)) as u64;
        store.words[COUNTERS + 3] = pages as u64;
        store.memory_len = managed * 4096;
        store
    }
}
