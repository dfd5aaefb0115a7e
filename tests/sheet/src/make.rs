//! Makes a sound table of a shape: frames are cut and marked by chance, and the
//! lists and counters follow from them.

use std::rc::Rc;

use crate::random::Random;
use crate::state::{
    size, table_pages, Links, Pass, Record, State, Table, ADMITTED, ALLOCATED, KERNEL, LISTS, PAGE,
    ZEROED,
};
use crate::tables::Shape;

pub fn make(shape: &Shape, random: &mut Random) -> Table {
    let mut state = State::default();
    for (row, &(start, pages)) in state.rows.iter_mut().zip(&shape.rows) {
        (row.start, row.pages) = (start, pages);
    }
    let managed = state.managed() as usize;
    let mut records = vec![0; managed * Record::BYTES];
    // Nobody looks at what is behind, so it's anything.
    records.extend((0..shape.spare * Record::BYTES).map(|_| random.next() as u8));

    let mut base = 0;
    for row in &mut state.rows {
        let tables = table_pages(row.pages);
        let first = row.start / PAGE + tables;
        let end = base + (row.pages - tables);
        let heads = cut(shape, random, first, base, end);
        for &(page, head) in &heads {
            head.write(&mut records, page);
        }
        for (k, list) in row.lists.iter_mut().enumerate() {
            let belongs = |head: &Record| {
                head.marks & ALLOCATED == 0 && k as u32 == class(head.level, head.marks)
            };
            let heads = heads.iter().filter(|(_, head)| belongs(head));
            let mut pages: Vec<u64> = heads.map(|&(page, _)| page).collect();
            if shape.shuffled {
                random.shuffle(&mut pages);
            }
            *list = link(&pages, &mut records);
        }
        let counters = &mut state.counters;
        counters.total += row.pages;
        counters.idle += tables;
        for (_, head) in heads {
            *match (head.marks & ALLOCATED != 0, head.marks & KERNEL != 0) {
                (false, _) => &mut counters.idle,
                (true, false) => &mut counters.page_data,
                (true, true) => &mut counters.kernel_used,
            } += size(head.level);
        }
        base = end;
    }

    let counters = &mut state.counters;
    [counters.allocated, counters.freed] = [random.next(), random.next()];
    [counters.reclaimed, counters.pager_outstanding] = [random.next(), random.next()];
    let queue_len = random.within(1, 64);
    let any = random.within(0, queue_len);
    state.queued = random.pick(&[0, queue_len, any]);
    state.pass = pass(random);
    let spare = shape.spare * PAGE as usize + shape.spare;
    Table {
        state,
        records: Rc::new(records),
        memory_len: managed * PAGE as usize + spare,
        queue_len: queue_len as usize,
    }
}

/// The list that an unheld frame belongs on.
pub fn class(level: u32, marks: u32) -> u32 {
    level * 2 + u32::from(marks & ZEROED != 0)
}

/// The frames of a region, without neighbours: its pages from `base` to `end`,
/// whose first has the page frame number `first`.
fn cut(shape: &Shape, random: &mut Random, first: u64, base: u64, end: u64) -> Vec<(u64, Record)> {
    let mut heads = Vec::new();
    let mut page = base;
    while page < end {
        let number = first + (page - base);
        let fits = |level: &u32| number % size(*level) == 0 && page + size(*level) <= end;
        let largest = (0..=2).rev().find(fits).unwrap();
        let level = if random.percent(shape.large) { largest } else { 0 };
        let mut marks = ADMITTED;
        for (mark, share) in
            [(ALLOCATED, shape.held), (KERNEL, shape.kernel), (ZEROED, shape.zeroed)]
        {
            marks |= mark * u32::from(random.percent(share));
        }
        heads.push((page, Record { marks, level, ..Record::default() }));
        page += size(level);
    }
    heads
}

/// Links the pages in this order.
pub fn link(pages: &[u64], records: &mut [u8]) -> Links {
    let number = |k: Option<usize>| k.and_then(|k| pages.get(k)).map_or(0, |page| *page as u32 + 1);
    for (k, &page) in pages.iter().enumerate() {
        let (earlier, later) = (number(k.checked_sub(1)), number(Some(k + 1)));
        let head = Record::read(records, page);
        Record { earlier, later, ..head }.write(records, page);
    }
    let back = number(pages.len().checked_sub(1));
    Links { front: number(Some(0)), back, count: pages.len() as u32 }
}

/// The pass counts, often at their limits.
fn pass(random: &mut Random) -> Pass {
    let any = random.within(0, 1001);
    let rounds = random.pick(&[0, 1, 1001, any]);
    let any = random.within(0, 100 * rounds);
    let freed = random.pick(&[0, 100 * rounds, any]);
    Pass { rounds, freed }
}

/// A list of a table: its row, its place there, and its pages in order.
pub type List = (usize, usize, Vec<u64>);

/// The lists that aren't empty.
pub fn lists(table: &Table) -> Vec<List> {
    let mut lists = Vec::new();
    for (row, it) in table.state.rows.iter().enumerate() {
        for k in 0..LISTS {
            let mut at = it.lists[k].front;
            let pages: Vec<u64> = (0..it.lists[k].count)
                .map(|_| {
                    let page = u64::from(at) - 1;
                    at = table.record(page).later;
                    page
                })
                .collect();
            if !pages.is_empty() {
                lists.push((row, k, pages));
            }
        }
    }
    lists
}
