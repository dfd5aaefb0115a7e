//! 01's torn sheet once more, from its words and their readings in
//! docs/DECISIONS.md (4 to 9 and 11), and from nothing else of this repository:
//! sets and loops, with no thought of speed. Each sentence is a function below
//! its words; a later one may take it that the earlier ones hold.

use std::collections::{BTreeMap, BTreeSet};

use crate::state::{
    size, table_pages, Counters, Links, Pass, Record, Row, State, ADMITTED, ALLOCATED, KERNEL,
    PAGE, ROWS, ZEROED,
};

/// A sentence of the sheet by a short name.
pub type Sentence = &'static str;

/// In the order in which they are tried, which is the sheet's.
pub const SENTENCES: [Sentence; 13] = [
    "rows", "loans", "heads", "held", "lists", "unheld", "idle", "total", "kernel", "page",
    "waiting", "queue", "pass",
];

/// The managed part of a row: the page frame number of its first page, and the
/// numbers of its pages in the records.
struct Region<'a> {
    row: &'a Row,
    first: u64,
    base: u64,
    end: u64,
}

/// The heads of a region, by their pages.
type Heads = BTreeMap<u64, Record>;

pub fn whole(state: &State, records: &[u8], memory_len: usize, queue_len: usize) -> bool {
    torn_by(state, records, memory_len, queue_len).is_none()
}

/// The first sentence that fails.
pub fn torn_by(
    state: &State,
    records: &[u8],
    memory_len: usize,
    queue_len: usize,
) -> Option<Sentence> {
    sheet(state, records, memory_len, queue_len).err()
}

fn sheet(state: &State, records: &[u8], memory: usize, queue: usize) -> Result<(), Sentence> {
    demand(rows_are_such_as_boot_makes(&state.rows), "rows")?;
    let regions = regions(&state.rows);
    let managed = regions.last().map_or(0, |region| region.end);
    demand(loans_are_long_enough(managed, records.len(), memory), "loans")?;
    let heads = regions.iter().map(|region| stepping_meets_heads(region, records));
    let heads: Vec<_> = heads.collect::<Option<_>>().ok_or("heads")?;
    demand(heads.iter().all(held_heads_have_no_neighbours), "held")?;
    let both = regions.iter().zip(&heads);
    let listed = both.map(|(region, heads)| each_list_walks(region.row, heads));
    let listed: Vec<_> = listed.collect::<Option<_>>().ok_or("lists")?;
    let mut both = heads.iter().zip(&listed);
    demand(both.all(|(heads, listed)| unheld_heads_are_listed(heads, listed)), "unheld")?;
    counts_are_equal(&state.counters, &regions, &heads, &listed)?;
    demand(waiting_is_none(&state.counters), "waiting")?;
    demand(queue_is_within_its_loan(state.queued, queue), "queue")?;
    demand(pass_is_within_its_bounds(&state.pass), "pass")
}

fn demand(holds: bool, sentence: Sentence) -> Result<(), Sentence> {
    holds.then_some(()).ok_or(sentence)
}

/// "the rows' starts and pages are such as boot makes": those of some map that
/// boot accepts. Unused rows are all zeros and stand behind the others.
fn rows_are_such_as_boot_makes(rows: &[Row; ROWS]) -> bool {
    let is_unused = |row: &Row| {
        let no_list = |list: &Links| (list.front, list.back, list.count) == (0, 0, 0);
        row.start == 0 && row.pages == 0 && row.lists.iter().all(no_list)
    };
    let used: Vec<_> = rows.iter().take_while(|row| !is_unused(row)).collect();
    let behind = rows.iter().skip(used.len()).all(is_unused);
    let start = |row: &Row| u128::from(row.start);
    let end = |row: &Row| start(row) + u128::from(row.pages) * u128::from(PAGE);
    // "The start is rounded up to a page"; entries "with 1 page or less" are skipped.
    let kept = used.iter().all(|row| row.start % PAGE == 0 && row.pages > 1);
    // Refusals 2 to 4.
    let near = used.iter().all(|row| end(row) <= 1 << 40);
    let apart = used.iter().enumerate().all(|(k, row)| {
        used[..k].iter().all(|other| end(row) <= start(other) || end(other) <= start(row))
    });
    let few = used.iter().map(|row| u128::from(row.pages)).sum::<u128>() <= 1_048_576;
    behind && kept && near && apart && few
}

/// Page numbers "run over all regions in map order, from 0"; tables have none.
fn regions(rows: &[Row; ROWS]) -> Vec<Region<'_>> {
    let mut end = 0;
    let used = rows.iter().take_while(|row| row.pages > 0);
    used.map(|row| {
        let tables = table_pages(row.pages);
        let base = end;
        end += row.pages - tables;
        Region { row, first: row.start / PAGE + tables, base, end }
    })
    .collect()
}

/// "and the loans long enough": a record and a page of memory for each managed
/// page.
fn loans_are_long_enough(managed: u64, records: usize, memory: usize) -> bool {
    records as u64 >= managed * Record::BYTES as u64 && memory as u64 >= managed * PAGE
}

/// "stepping by frame size from each region's first managed page meets ADMITTED,
/// aligned heads of level 0 to 2 with no mark bits but those named, ending at its
/// end, zeros inside".
fn stepping_meets_heads(region: &Region, records: &[u8]) -> Option<Heads> {
    let named = ADMITTED | ALLOCATED | ZEROED | KERNEL;
    let mut heads = Heads::new();
    let mut page = region.base;
    while page < region.end {
        let head = Record::read(records, page);
        if head.marks & ADMITTED == 0 || head.marks & !named != 0 || head.level > 2 {
            return None;
        }
        let next = page + size(head.level);
        let aligned = (region.first + (page - region.base)) % size(head.level) == 0;
        if !aligned || next > region.end {
            return None;
        }
        let byte = |page: u64| page as usize * Record::BYTES;
        if records[byte(page + 1)..byte(next)].iter().any(|&byte| byte != 0) {
            return None;
        }
        heads.insert(page, head);
        page = next;
    }
    Some(heads)
}

/// "held heads have neighbours 0".
fn held_heads_have_no_neighbours(heads: &Heads) -> bool {
    let mut held = heads.values().filter(|head| is_held(head));
    held.all(|head| head.earlier == 0 && head.later == 0)
}

fn is_held(head: &Record) -> bool {
    head.marks & ALLOCATED != 0
}

/// "each list walks front to back in its count, both ways, over unheld frames of
/// its region, level and mark": the pages of all six.
fn each_list_walks(row: &Row, heads: &Heads) -> Option<BTreeSet<u64>> {
    let mut listed = BTreeSet::new();
    for (k, list) in row.lists.iter().enumerate() {
        let (level, zeroed) = (k as u32 / 2, k % 2 == 1);
        let forth = walk(list.front, list.count, heads, |head| head.later)?;
        let mut back = walk(list.back, list.count, heads, |head| head.earlier)?;
        back.reverse();
        let belongs = |page: &u64| {
            let head = heads[page];
            !is_held(&head) && head.level == level && (head.marks & ZEROED != 0) == zeroed
        };
        if forth != back || !forth.iter().all(belongs) {
            return None;
        }
        listed.extend(forth);
    }
    Some(listed)
}

/// The pages met in so many steps, if all are heads and nothing follows them. A
/// page met twice leads round and round, so there is no need to go on.
fn walk(from: u32, count: u32, heads: &Heads, next: fn(&Record) -> u32) -> Option<Vec<u64>> {
    let mut pages = Vec::new();
    let mut seen = BTreeSet::new();
    let mut at = from;
    for _ in 0..count {
        let page = u64::from(at).checked_sub(1)?;
        let head = heads.get(&page)?;
        if !seen.insert(page) {
            return None;
        }
        pages.push(page);
        at = next(head);
    }
    (at == 0).then_some(pages)
}

/// "every unheld head is on a list".
fn unheld_heads_are_listed(heads: &Heads, listed: &BTreeSet<u64>) -> bool {
    heads.iter().all(|(page, head)| is_held(head) || listed.contains(page))
}

/// "idle, total, kernel and page counts equal those of the rows and records, as
/// demand 3 says, but with held and KERNEL read off the heads' marks": idle pages
/// are the listed ones and the tables.
fn counts_are_equal(
    counters: &Counters,
    regions: &[Region],
    heads: &[Heads],
    listed: &[BTreeSet<u64>],
) -> Result<(), Sentence> {
    let sizes = |heads: &Heads, counts: &dyn Fn(&u64, &Record) -> bool| -> u64 {
        heads.iter().filter(|(page, head)| counts(page, head)).map(|(_, it)| size(it.level)).sum()
    };
    let held = |kernel: bool| -> u64 {
        let counts = |_: &u64, it: &Record| is_held(it) && (it.marks & KERNEL != 0) == kernel;
        heads.iter().map(|heads| sizes(heads, &counts)).sum()
    };
    let total = regions.iter().map(|region| region.row.pages).sum::<u64>();
    let tables = regions.iter().map(|region| table_pages(region.row.pages)).sum::<u64>();
    let on_lists = heads.iter().zip(listed);
    let idle = tables
        + on_lists.map(|(heads, on)| sizes(heads, &|page, _| on.contains(page))).sum::<u64>();
    // By the book, "idle = the kept regions' pages − held".
    assert_eq!(idle, total - held(true) - held(false), "two ways to count idle pages");
    demand(counters.idle == idle, "idle")?;
    demand(counters.total == total, "total")?;
    demand(counters.kernel_used == held(true), "kernel")?;
    demand(counters.page_data == held(false), "page")
}

/// "`waiting` is 0".
fn waiting_is_none(counters: &Counters) -> bool {
    counters.waiting == 0
}

/// "the queue's count is within its loan".
fn queue_is_within_its_loan(queued: u64, queue: usize) -> bool {
    queued <= queue as u64
}

/// "pass rounds are at most 1,001 and freed at most 100 × rounds".
fn pass_is_within_its_bounds(pass: &Pass) -> bool {
    pass.rounds <= 1001 && pass.freed <= 100 * pass.rounds
}
