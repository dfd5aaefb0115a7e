//! The crates record and list once more, in plain Rust: the same records in the
//! same bytes, the same steps, with slices indexed as one writes them. The
//! drivers have the signatures of the exported ones, so that both are timed
//! alike.

use std::slice::{from_raw_parts, from_raw_parts_mut};

const MOST: usize = 1_048_576;

struct Record {
    marks: u32,
    level: u32,
    earlier: u32,
    later: u32,
}

#[derive(Clone, Copy)]
struct Links {
    front: u32,
    back: u32,
    count: u32,
}

/// The bytes of one record: the index is tested once.
fn at(records: &[u8], page: usize) -> &[u8; 16] {
    records[page * 16..page * 16 + 16].try_into().unwrap()
}

fn at_mut(records: &mut [u8], page: usize) -> &mut [u8; 16] {
    (&mut records[page * 16..page * 16 + 16]).try_into().unwrap()
}

fn word(record: &[u8; 16], at: usize) -> u32 {
    u32::from_le_bytes(record[at..at + 4].try_into().unwrap())
}

fn set_word(record: &mut [u8; 16], at: usize, value: u32) {
    record[at..at + 4].copy_from_slice(&value.to_le_bytes());
}

fn load(records: &[u8], page: usize) -> Record {
    let r = at(records, page);
    Record { marks: word(r, 0), level: word(r, 4), earlier: word(r, 8), later: word(r, 12) }
}

fn store(records: &mut [u8], page: usize, record: Record) {
    let r = at_mut(records, page);
    set_word(r, 0, record.marks);
    set_word(r, 4, record.level);
    set_word(r, 8, record.earlier);
    set_word(r, 12, record.later);
}

fn set_earlier(records: &mut [u8], page: usize, value: u32) {
    set_word(at_mut(records, page), 8, value);
}

fn set_later(records: &mut [u8], page: usize, value: u32) {
    set_word(at_mut(records, page), 12, value);
}

fn set_links(records: &mut [u8], page: usize, earlier: u32, later: u32) {
    let r = at_mut(records, page);
    set_word(r, 8, earlier);
    set_word(r, 12, later);
}

fn push_back(records: &mut [u8], list: Links, page: usize) -> Links {
    let code = (page + 1) as u32;
    set_links(records, page, list.back, 0);
    if list.back != 0 {
        set_later(records, (list.back - 1) as usize, code);
    }
    let front = if list.back == 0 { code } else { list.front };
    Links { front, back: code, count: list.count + 1 }
}

fn remove(records: &mut [u8], list: Links, page: usize) -> Links {
    let Record { earlier, later, .. } = load(records, page);
    if earlier != 0 {
        set_later(records, (earlier - 1) as usize, later);
    }
    if later != 0 {
        set_earlier(records, (later - 1) as usize, earlier);
    }
    set_links(records, page, 0, 0);
    Links {
        front: if earlier == 0 { later } else { list.front },
        back: if later == 0 { earlier } else { list.back },
        count: list.count - 1,
    }
}

fn pop_back(records: &mut [u8], list: Links) -> Option<(usize, Links)> {
    if list.back == 0 {
        return None;
    }
    let page = (list.back - 1) as usize;
    Some((page, remove(records, list, page)))
}

fn fits(length: usize, count: usize) -> bool {
    count <= length / 16 && length / 16 <= MOST
}

fn push_all(records: &mut [u8], count: usize) -> Links {
    let mut list = Links { front: 0, back: 0, count: 0 };
    for page in 0..count {
        list = push_back(records, list, page);
    }
    list
}

fn pop_all(records: &mut [u8], mut list: Links, count: usize) -> usize {
    for popped in 0..count {
        match pop_back(records, list) {
            None => return popped,
            Some((_, rest)) => list = rest,
        }
    }
    count
}

/// # Safety
/// The bytes are lent for the call, as for each driver below.
pub unsafe extern "C" fn store_pages(records: *mut u8, length: usize, count: usize) -> usize {
    if !fits(length, count) {
        return 0;
    }
    let records = from_raw_parts_mut(records, length);
    for page in 0..count {
        let n = page as u32;
        store(records, page, Record { marks: 1, level: 2, earlier: n, later: n + 1 });
    }
    count
}

pub unsafe extern "C" fn load_pages(records: *const u8, length: usize, count: usize) -> u64 {
    if !fits(length, count) {
        return 0;
    }
    let records = from_raw_parts(records, length);
    let mut sum = 0;
    for page in 0..count {
        let r = load(records, page);
        sum += r.marks as u64 + r.level as u64 + r.earlier as u64 + r.later as u64;
    }
    sum
}

pub unsafe extern "C" fn push(records: *mut u8, length: usize, count: usize) -> usize {
    if !fits(length, count) {
        return 0;
    }
    push_all(from_raw_parts_mut(records, length), count).count as usize
}

pub unsafe extern "C" fn push_pop(records: *mut u8, length: usize, count: usize) -> usize {
    if !fits(length, count) {
        return 0;
    }
    let records = from_raw_parts_mut(records, length);
    let list = push_all(records, count);
    pop_all(records, list, count)
}
