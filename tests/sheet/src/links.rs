//! Damages to the links: each leaves the rest as a careful hand would, so that
//! few sentences of the sheet see it.

use crate::damage::Damager;
use crate::make::{class, link, lists, List};
use crate::state::{size, Links, Record, Table, ADMITTED, ALLOCATED, KERNEL, LISTS};

pub fn all(damager: &mut Damager) {
    let lists = lists(damager.table);
    for at in damager.choose(lists.len(), 12, 3) {
        let (row, k, pages) = &lists[at];
        let (row, k) = (*row, *k);
        rings(damager, row, k, pages);
        swaps(damager, row, k, pages);
        counts(damager, row, k);
        moves(damager, row, k, pages);
        grants(damager, row, k, pages);
        replaced(damager, row, k, pages);
        for other in lists.iter().filter(|it| (it.0, it.1) != (row, k)) {
            exchanges(damager, &lists[at], other);
        }
        let words = format!("row {row}'s lists {k} and {} are swapped", k ^ 1);
        damager.try_on("lists swapped", words, |table| table.state.rows[row].lists.swap(k, k ^ 1));
    }
    splits(damager);
}

fn number(page: u64) -> u32 {
    page as u32 + 1
}

fn list(table: &mut Table, row: usize, k: usize) -> &mut Links {
    &mut table.state.rows[row].lists[k]
}

/// The list's end leads back to a node of its own; a node leads to itself.
fn rings(damager: &mut Damager, row: usize, k: usize, pages: &[u64]) {
    let count = pages.len() as u32;
    let last = pages[pages.len() - 1];
    let to = damager.random.pick(pages);
    for (to, count) in [(pages[0], count), (pages[0], count + 1), (to, count), (to, u32::MAX)] {
        let words =
            format!("row {row}'s list {k} leads from its end {last} to {to}, count {count}");
        damager.try_on("a ring", words, |table| {
            table.change(last, |it| it.later = number(to));
            table.change(to, |it| it.earlier = number(last));
            list(table, row, k).count = count;
        });
    }
    let node = damager.random.pick(pages);
    for (forth, count) in [(true, count), (true, u32::MAX), (false, count)] {
        let words = format!("page {node} is its own neighbour, later: {forth}, count {count}");
        damager.try_on("a node by itself", words, |table| {
            let own = number(node);
            table.change(node, |it| *if forth { &mut it.later } else { &mut it.earlier } = own);
            list(table, row, k).count = count;
        });
    }
}

/// Two neighbours swapped, in one direction or in both; both leave it whole.
fn swaps(damager: &mut Damager, row: usize, k: usize, pages: &[u64]) {
    if pages.len() < 2 {
        return;
    }
    let at = damager.random.below(pages.len() as u64 - 1) as usize;
    let mut order = pages.to_vec();
    order.swap(at, at + 1);
    for (forth, back) in [(true, false), (false, true), (true, true)] {
        let words = format!(
            "row {row}'s list {k} has pages {} and {} swapped, later: {forth}, earlier: {back}",
            pages[at],
            pages[at + 1]
        );
        damager.try_on("a swap", words, |table| {
            if forth {
                list(table, row, k).front = number(order[0]);
                (0..order.len()).for_each(|i| {
                    table.change(order[i], |it| {
                        it.later = order.get(i + 1).map_or(0, |&page| number(page));
                    })
                });
            }
            if back {
                list(table, row, k).back = number(order[order.len() - 1]);
                (0..order.len()).for_each(|i| {
                    let before = i.checked_sub(1).map_or(0, |i| number(order[i]));
                    table.change(order[i], |it| it.earlier = before);
                });
            }
        });
    }
}

fn counts(damager: &mut Damager, row: usize, k: usize) {
    let count = damager.table.state.rows[row].lists[k].count;
    for new in [count - 1, count + 1] {
        let words = format!("row {row}'s list {k} has the count {new} and not {count}");
        damager.try_on("a count", words, |table| list(table, row, k).count = new);
    }
}

/// A node goes to the end of another list, or stays on its own besides, or goes
/// to none.
fn moves(damager: &mut Damager, row: usize, k: usize, pages: &[u64]) {
    let node = damager.random.pick(pages);
    let used = damager.table.state.rows.iter().filter(|row| row.pages > 0).count() as u64;
    let other = (damager.random.below(used) as usize, damager.random.below(LISTS as u64) as usize);
    let (to, j) = if other == (row, k) { (row, k ^ 1) } else { other };
    let words = format!("page {node} of row {row}'s list {k} is at the end of row {to}'s list {j}");
    damager.try_on("another list", words.clone(), |table| {
        take_out(table, row, k, node);
        push(table, to, j, node);
    });
    damager.try_on("two lists", words + " too", |table| push(table, to, j, node));
    for idle in [false, true] {
        let words = format!("page {node} of row {row}'s list {k} is on none, idle follows: {idle}");
        damager.try_on("no list", words, |table| {
            take_out(table, row, k, node);
            let pages = size(table.record(node).level);
            table.state.counters.idle -= pages * u64::from(idle);
        });
    }
}

/// Nodes of two lists change places, so that every count stays right.
fn exchanges(damager: &mut Damager, one: &List, other: &List) {
    let (a, b) = (damager.random.pick(&one.2), damager.random.pick(&other.2));
    let words = format!(
        "page {a} of row {}'s list {} and page {b} of row {}'s list {} change places",
        one.0, one.1, other.0, other.1
    );
    damager.try_on("an exchange", words, |table| {
        for (row, k, pages) in [one, other] {
            let swap = |page: u64| {
                if page == a {
                    b
                } else if page == b {
                    a
                } else {
                    page
                }
            };
            let pages: Vec<u64> = pages.iter().map(|&page| swap(page)).collect();
            *list(table, *row, *k) = link(&pages, table.bytes());
        }
    });
}

/// The only node of a list has no neighbours, as a held frame and a page inside
/// one have none: any other page in its place.
fn replaced(damager: &mut Damager, row: usize, k: usize, pages: &[u64]) {
    let &[only] = pages else { return };
    for page in damager.choose(damager.table.state.managed() as usize, 20, 3) {
        let page = page as u64;
        if page == only {
            continue;
        }
        let words = format!("the only page of row {row}'s list {k} is {page} and not {only}");
        damager.try_on("another page", words, |table| {
            let it = list(table, row, k);
            (it.front, it.back) = (number(page), number(page));
        });
    }
}

fn take_out(table: &mut Table, row: usize, k: usize, node: u64) {
    let Record { earlier, later, .. } = table.record(node);
    match earlier {
        0 => list(table, row, k).front = later,
        _ => table.change(u64::from(earlier) - 1, |it| it.later = later),
    }
    match later {
        0 => list(table, row, k).back = earlier,
        _ => table.change(u64::from(later) - 1, |it| it.earlier = earlier),
    }
    table.change(node, |it| (it.earlier, it.later) = (0, 0));
    list(table, row, k).count -= 1;
}

fn push(table: &mut Table, row: usize, k: usize, node: u64) {
    let back = list(table, row, k).back;
    match back {
        0 => list(table, row, k).front = number(node),
        _ => table.change(u64::from(back) - 1, |it| it.later = number(node)),
    }
    table.change(node, |it| (it.earlier, it.later) = (back, 0));
    list(table, row, k).back = number(node);
    list(table, row, k).count += 1;
}

/// A frame is granted, and the counters follow it or not; if they do, all is
/// whole.
fn grants(damager: &mut Damager, row: usize, k: usize, pages: &[u64]) {
    let node = damager.random.pick(pages);
    for kernel in [false, true] {
        for (idle, held) in [(false, false), (true, false), (false, true), (true, true)] {
            let words = format!(
                "page {node} of row {row}'s list {k} is granted, KERNEL: {kernel}, idle \
                 follows: {idle}, its counter: {held}"
            );
            damager.try_on("a grant by hand", words, |table| {
                take_out(table, row, k, node);
                let marks = ADMITTED | ALLOCATED | (KERNEL * u32::from(kernel));
                table.change(node, |it| it.marks = marks);
                let pages = size(table.record(node).level);
                let counters = &mut table.state.counters;
                counters.idle -= pages * u64::from(idle);
                let counter =
                    if kernel { &mut counters.kernel_used } else { &mut counters.page_data };
                *counter += pages * u64::from(held);
            });
        }
    }
}

/// A large frame becomes 512 pieces in the records alone. Held pieces are whole.
fn splits(damager: &mut Damager) {
    let pages = 0..damager.table.state.managed();
    let is_large = |page: &u64| damager.table.record(*page).level > 0;
    let heads: Vec<u64> = pages.filter(is_large).take(40).collect();
    for page in heads {
        let Record { marks, level, .. } = damager.table.record(page);
        let held = marks & ALLOCATED != 0;
        for pieces in [512, 511] {
            let words = format!("page {page} is split in the records into {pieces}, held: {held}");
            damager.try_on("a split by hand", words, |table| {
                for piece in 0..pieces {
                    let page = page + piece * size(level - 1);
                    table.change(page, |it| (it.marks, it.level) = (marks, level - 1));
                }
            });
        }
        let list = class(level, marks);
        let words = format!("page {page} of list {list} is a level lower");
        damager.try_on("a split by hand", words, |table| {
            table.change(page, |it| it.level = level - 1);
        });
    }
}
