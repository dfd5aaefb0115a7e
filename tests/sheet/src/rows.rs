//! Damages to the rows. But for the swaps, the tables are made anew around the
//! odd rows, so that records, lists and counters agree with them.

use crate::damage::Damager;
use crate::state::{PAGE, ROWS};
use crate::tables::{Extent, LAST, MOST};

pub fn all(damager: &mut Damager) {
    swapped(damager);
    let rows = damager.shape.rows.clone();
    let least = match damager.shape.extent {
        Extent::Few => rows.len().saturating_sub(1),
        _ => 0,
    };
    for at in least..rows.len() {
        one_otherwise(damager, &rows, at);
        one_more(damager, &rows, at);
    }
}

fn swapped(damager: &mut Damager) {
    for a in 0..damager.shape.rows.len() {
        for b in 0..a {
            let words = format!("rows {b} and {a} are swapped");
            damager.try_on("rows swapped", words, |table| table.state.rows.swap(a, b));
        }
    }
}

/// The row `at` with another start or other pages.
fn one_otherwise(damager: &mut Damager, rows: &[(u64, u64)], at: usize) {
    let (start, pages) = rows[at];
    let with = |row: (u64, u64)| {
        let mut rows = rows.to_vec();
        rows[at] = row;
        rows
    };
    for by in [1, 2048, 4095] {
        let words = format!("row {at}'s start {by} bytes higher");
        damager.try_shape("an odd start", words, with((start + by, pages)));
    }
    // Up to the end of the addresses, which boot accepts, and past it.
    for past in [0, 1, 1 << 20] {
        let start = (LAST + past - pages) * PAGE;
        let words = format!("row {at} up to {past} pages past 2^40");
        damager.try_shape("a far row", words, with((start, pages)));
    }
    for pages in [0, 1] {
        let words = format!("row {at} of {pages} pages");
        damager.try_shape("a row of a page", words, with((start, pages)));
    }
    let total: u64 = rows.iter().map(|row| row.1).sum();
    if total == MOST {
        for more in [1, 200] {
            let words = format!("{more} more pages in row {at}");
            let row = (start - more * PAGE, pages + more);
            damager.try_shape("too many pages", words, with(row));
        }
    }
}

/// A row more, behind the row `at` or in its place where there are eight.
fn one_more(damager: &mut Damager, rows: &[(u64, u64)], at: usize) {
    let with = |row: (u64, u64)| {
        let mut rows = rows.to_vec();
        match rows.len() {
            ROWS => rows[(at + 1) % ROWS] = row,
            _ => rows.insert(at, row),
        }
        rows
    };
    let (start, pages) = rows[at];
    let end = start + pages * PAGE;
    // The first two touch the row and share nothing with it.
    let beside = [
        (end, 3),
        (start.saturating_sub(3 * PAGE), 3),
        (end - PAGE, 3),
        (start.saturating_sub(2 * PAGE), 3),
        (start, 2),
        (start + PAGE, 2),
    ];
    for row in beside {
        let words = format!("a row of {} pages from {} beside row {at}", row.1, row.0);
        damager.try_shape("rows that overlap", words, with(row));
    }
    damager.try_shape("a gap row", format!("an unused row before row {at}"), with((0, 0)));
    if rows.len() < ROWS {
        let mut rows = rows.to_vec();
        rows.push((0, 0));
        damager.try_shape("a gap row", "an unused row at the end".into(), rows);
    }
}
