//! Loads, stores, pushes and pops of the pages from 0 on, in Rattle and in plain
//! Rust.

use std::hint::black_box;

use crate::{clock::best, plain, rattle};

type Driver = unsafe extern "C" fn(*mut u8, usize, usize) -> usize;
type Loader = unsafe extern "C" fn(*const u8, usize, usize) -> u64;

/// Pages that a side passes over in one turn of the clock, at least.
const PAGES_A_TURN: usize = 65_536;

const TURNS: usize = 400;

pub fn heading() {
    println!("{:<30}{:>9}{:>12}{:>12}{:>8}", "ns a page", "pages", "Rattle", "Rust", "ratio");
}

pub fn run(pages: usize) {
    let mut loans = [vec![1u8; pages * 16], vec![1u8; pages * 16]];
    let store = drive([rattle::leaves_store, plain::store_pages], &mut loans, pages);
    let load = sum([rattle::leaves_load, plain::load_pages], &loans, pages);
    let push = drive([rattle::leaves_push, plain::push], &mut loans, pages);
    let both = drive([rattle::leaves_push_pop, plain::push_pop], &mut loans, pages);
    // A list can't be handed from one call to the next, so that pops are never
    // timed by themselves.
    let pop = [both[0] - push[0], both[1] - push[1]];

    let rows = [("load", load), ("store", store), ("push_back", push), ("pop_back", pop)];
    for (name, times) in rows {
        let [ours, theirs] = times.map(|time| time / pages as f64);
        let ratio = ours / theirs;
        println!("{name:<30}{pages:>9}{ours:>12.2}{theirs:>12.2}{ratio:>8.2}");
    }
}

fn drive(drivers: [Driver; 2], loans: &mut [Vec<u8>; 2], pages: usize) -> [f64; 2] {
    let [ours, theirs] = loans;
    let [a, b] = black_box(drivers);
    // Safety: the loans outlive the calls.
    let mut first = || assert_eq!(unsafe { a(ours.as_mut_ptr(), ours.len(), pages) }, pages);
    let mut second = || assert_eq!(unsafe { b(theirs.as_mut_ptr(), theirs.len(), pages) }, pages);
    let times = best(TURNS, PAGES_A_TURN.div_ceil(pages), [&mut first, &mut second]);
    assert!(ours == theirs, "the two sides leave different records");
    times
}

fn sum(loaders: [Loader; 2], loans: &[Vec<u8>; 2], pages: usize) -> [f64; 2] {
    let [ours, theirs] = loans;
    let [a, b] = black_box(loaders);
    let (mut x, mut y) = (0, 0);
    // Safety: as in `drive`.
    let mut first = || x = black_box(unsafe { a(ours.as_ptr(), ours.len(), pages) });
    let mut second = || y = black_box(unsafe { b(theirs.as_ptr(), theirs.len(), pages) });
    let times = best(TURNS, PAGES_A_TURN.div_ceil(pages), [&mut first, &mut second]);
    assert_eq!(x, y, "the two sides load different records");
    times
}
