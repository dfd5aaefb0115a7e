//! The audit once more, in plain Rust: the same steps over the same words and
//! records, with slices indexed as one writes them. The walk of a list is there
//! twice: from both ends at once, as the store walks, and from one.

const VERSION: u32 = 2;
const ROW: usize = 11;
const QUEUED: usize = 1 + 8 * ROW;
const COUNTERS: usize = QUEUED + 3;
const WORDS: usize = 512;

/// 2^40 bytes, in pages.
const LAST: u64 = 1 << 28;

#[derive(Clone, Copy, Default)]
struct Links {
    front: u32,
    back: u32,
    count: u32,
}

#[derive(Clone, Copy, Default)]
struct Row {
    start: u64,
    pages: u64,
    lists: [Links; 6],
}

impl Row {
    fn of(words: &[u64]) -> Row {
        let mut lists = [Links::default(); 6];
        for (pair, at) in lists.chunks_exact_mut(2).zip(words[2..].chunks_exact(3)) {
            let (low, high) = (|k: usize| at[k] as u32, |k: usize| (at[k] >> 32) as u32);
            pair[0] = Links { front: low(0), back: high(0), count: low(2) };
            pair[1] = Links { front: low(1), back: high(1), count: high(2) };
        }
        Row { start: words[0], pages: words[1], lists }
    }

    fn tables(&self) -> u64 {
        (32 * self.pages).div_ceil(4096)
    }

    fn managed(&self) -> u64 {
        self.pages - self.tables()
    }

    fn first(&self) -> u64 {
        self.start / 4096
    }

    fn is_unused(&self) -> bool {
        let none = |list: &Links| list.front == 0 && list.back == 0 && list.count == 0;
        self.start == 0 && self.pages == 0 && self.lists.iter().all(none)
    }

    fn is_as_boot_makes(&self) -> bool {
        self.start % 4096 == 0
            && self.pages > 1
            && self.pages <= LAST
            && self.first() <= LAST - self.pages
    }
}

/// The pages of one region in the records, and the page frame number of its
/// first.
#[derive(Clone, Copy)]
struct Region {
    from: usize,
    base: usize,
    past: usize,
}

/// A number of a page's record: 0 its marks, 1 its level, 2 and 3 its neighbours.
fn number(records: &[u8], page: usize, k: usize) -> u32 {
    let at = page * 16 + k * 4;
    u32::from_le_bytes(records[at..at + 4].try_into().unwrap())
}

fn pages_at(level: u32) -> usize {
    match level {
        0 => 1,
        1 => 512,
        _ => 262_144,
    }
}

/// The pages of the head at a page, if it is a good one.
fn head_pages(records: &[u8], region: Region, at: usize) -> Option<usize> {
    let (marks, level) = (number(records, at, 0), number(records, at, 1));
    if marks & 1 == 0 || marks >= 16 {
        return None;
    }
    // A branch of its own, so that the step to the next head waits for no load.
    if level == 0 {
        return Some(1);
    }
    if level >= 3 {
        return None;
    }
    let pages = pages_at(level);
    let Region { from, base, past } = region;
    if (from + (at - base)) % pages != 0 || past - at < pages {
        return None;
    }
    // No early exit, so that the loop is vector code.
    let inside = &records[(at + 1) * 16..(at + pages) * 16];
    (inside.iter().fold(0, |all, byte| all | byte) == 0).then_some(pages)
}

/// The pages held without KERNEL and with it, if all heads are good.
fn scan(records: &[u8], region: Region) -> Option<[usize; 2]> {
    let mut held = [0; 2];
    let mut at = region.base;
    while at < region.past {
        let pages = head_pages(records, region, at)?;
        let marks = number(records, at, 0);
        if marks & 2 != 0 {
            if number(records, at, 2) != 0 || number(records, at, 3) != 0 {
                return None;
            }
            held[(marks / 8 % 2) as usize] += pages;
        }
        at += pages;
    }
    Some(held)
}

/// Whether `at` names an unheld frame of the region and the list.
fn is_on(records: &[u8], region: Region, k: usize, at: u32) -> bool {
    if at as usize <= region.base || region.past < at as usize {
        return false;
    }
    let page = at as usize - 1;
    let (marks, level) = (number(records, page, 0), number(records, page, 1));
    marks % 8 == 1 + 4 * (k as u32 % 2) && level as usize == k / 2
}

fn earlier(records: &[u8], at: u32) -> u32 {
    number(records, at as usize - 1, 2)
}

fn later(records: &[u8], at: u32) -> u32 {
    number(records, at as usize - 1, 3)
}

fn walks_from_one_end(records: &[u8], region: Region, k: usize, list: Links) -> bool {
    let (mut before, mut at) = (0, list.front);
    for _ in 0..list.count {
        if !is_on(records, region, k, at) || earlier(records, at) != before {
            return false;
        }
        (before, at) = (at, later(records, at));
    }
    at == 0 && before == list.back
}

fn walks_from_both_ends(records: &[u8], region: Region, k: usize, list: Links) -> bool {
    let (mut before, mut at) = (0, list.front);
    let (mut behind, mut last) = (0, list.back);
    let mut left = list.count;
    while left >= 2 {
        if !is_on(records, region, k, at) || earlier(records, at) != before {
            return false;
        }
        if !is_on(records, region, k, last) || later(records, last) != behind {
            return false;
        }
        (before, at) = (at, later(records, at));
        (behind, last) = (last, earlier(records, last));
        left -= 2;
    }
    if left == 1 {
        if !is_on(records, region, k, at) || earlier(records, at) != before {
            return false;
        }
        (before, at) = (at, later(records, at));
    }
    at == behind && before == last
}

/// 0 where all is whole, and 6 where it's torn or the words are no state.
pub fn audit<const BOTH: bool>(
    words: &[u64],
    records: &[u8],
    memory_len: usize,
    queue_len: usize,
) -> u32 {
    if words.len() < WORDS || words[0] as u32 != VERSION {
        return 6;
    }
    is_whole::<BOTH>(words, records, memory_len, queue_len).map_or(6, |()| 0)
}

fn is_whole<const BOTH: bool>(
    words: &[u64],
    records: &[u8],
    memory_len: usize,
    queue_len: usize,
) -> Option<()> {
    let mut rows = [Row::default(); 8];
    let in_use = (words[0] >> 32) as usize;
    for (row, words) in rows.iter_mut().zip(words[1..].chunks_exact(ROW)).take(in_use) {
        *row = Row::of(words);
    }
    let demand = |holds: bool| holds.then_some(());
    let (mut used, mut total, mut base, mut held) = (0, 0, 0, [0; 2]);
    for (i, row) in rows.iter().enumerate() {
        if row.pages == 0 {
            demand(row.is_unused())?;
            continue;
        }
        demand(used == i && row.is_as_boot_makes())?;
        let past = base + row.managed() as usize;
        demand(past <= records.len() / 16)?;
        let region = Region { from: (row.first() + row.tables()) as usize, base, past };
        let [page, kernel] = scan(records, region)?;
        let pages = |(k, list): (usize, &Links)| pages_at(k as u32 / 2) * list.count as usize;
        let listed: usize = row.lists.iter().enumerate().map(pages).sum();
        demand(listed == past - base - page - kernel)?;
        for (k, list) in row.lists.into_iter().enumerate() {
            let walks = if BOTH { walks_from_both_ends } else { walks_from_one_end };
            demand(walks(records, region, k, list))?;
        }
        (used, total, base) = (used + 1, total + row.pages, past);
        held = [held[0] + page, held[1] + kernel];
    }
    for (k, row) in rows[..used].iter().enumerate() {
        let shares =
            |it: &Row| row.first() < it.first() + it.pages && it.first() < row.first() + row.pages;
        demand(!rows[k + 1..used].iter().any(shares))?;
    }
    demand(total <= 1_048_576 && 4096 * base <= memory_len)?;

    let [kernel_used, page_data, counted_idle, counted_total] =
        words[COUNTERS..COUNTERS + 4].try_into().unwrap();
    let idle = total - (held[0] + held[1]) as u64;
    demand(counted_idle == idle && counted_total == total)?;
    demand(kernel_used == held[1] as u64 && page_data == held[0] as u64)?;
    let waiting = words[COUNTERS + 7];
    let [queued, rounds, freed] = words[QUEUED..COUNTERS].try_into().unwrap();
    demand(waiting == 0 && queued <= queue_len as u64)?;
    demand(rounds <= 1001 && freed <= 100 * rounds)
}
