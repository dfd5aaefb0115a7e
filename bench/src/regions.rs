//! One region: a grant that splits its only frame, a grant that finds a listed
//! one, and the layout of many pages.

use std::hint::black_box;

use crate::{
    clock::{best, tenth},
    original, rattle,
};

/// A region whose tables end where its only frame starts.
pub struct Region {
    pub start: u64,
    pub pages: usize,
    /// The level of the 512 pieces that the frame is split into.
    pub level: usize,
}

/// Nanoseconds for the layout, the grant that splits, and each of the 511 grants
/// after it.
pub struct Times {
    pub layout: f64,
    pub split: f64,
    pub listed: f64,
}

pub fn heading() {
    println!("\n{:<39}{:>12}{:>12}{:>8}", "ns", "Rattle", "original", "ratio");
}

pub fn split(name: &str, level: usize, turns: usize) {
    let managed = 512usize.pow(level as u32 + 1);
    // A page's entry in the tables takes 32 bytes.
    let tables = |pages: usize| pages.div_ceil(128);
    let pages = (managed..).find(|&pages| pages - tables(pages) == managed).unwrap();
    let start = (managed - tables(pages)) as u64 * 4096;
    let region = Region { start, pages, level };

    let ours = grants(&region, &mut vec![1; managed * 16], turns);
    let theirs = original::grants(&region, turns / 10);
    let rows = [
        ("the region laid out", ours.layout, theirs.as_ref().map(|t| t.layout)),
        ("a grant that splits it", ours.split, theirs.as_ref().map(|t| t.split)),
        ("a grant of a listed piece", ours.listed, theirs.as_ref().map(|t| t.listed)),
    ];
    for (what, ours, theirs) in rows {
        let name = format!("{name} frame: {what}");
        match theirs {
            Some(theirs) => {
                println!("{name:<39}{ours:>12.1}{theirs:>12.1}{:>8.2}", ours / theirs)
            }
            None => println!("{name:<39}{ours:>12.1}{:>12}{:>8}", "-", "-"),
        }
    }
}

/// The exported driver lays the region out before the grants, so that each time
/// is the difference of two.
fn grants(region: &Region, records: &mut [u8], turns: usize) -> Times {
    let &Region { start, pages, level } = region;
    let driver = black_box(rattle::grants as rattle::Grants);
    let mut run = |times| assert_eq!(driver(records, start, pages, level, times), times);
    let calls = 8192usize.div_ceil(pages);
    let mut taken = [const { Vec::new() }; 3];
    for _ in 0..turns {
        for (taken, times) in taken.iter_mut().zip([0, 1, 512]) {
            let [time] = best(1, calls, [&mut || run(times)]);
            taken.push(time);
        }
    }
    let [none, one, all] = taken.map(tenth);
    Times { layout: none, split: one - none, listed: (all - one) / 511.0 }
}

/// 4 GiB from address 0 on: 496 frames of 2 MiB and 3 of 1 GiB, so that clearing
/// the records is all but the whole of it.
pub fn layout() {
    const PAGES: usize = 1_048_576;
    const BYTES: usize = (PAGES - PAGES / 128) * 16;
    let (mut records, mut plain) = (vec![1u8; BYTES], vec![1u8; BYTES]);
    let driver = black_box(rattle::new as rattle::New);
    let mut first = || assert_eq!(driver(&mut records, 0, PAGES), 0, "small frames");
    let mut second = || black_box(&mut plain).fill(black_box(0));
    let [ours, fill] = best(200, 1, [&mut first, &mut second]);
    let [fast, most] = [ours, fill].map(|time| BYTES as f64 / time);
    println!("\n{:<39}{:>12}{:>12}{:>8}", "GB/s of records", "Rattle", "fill", "ratio");
    println!("{:<39}{fast:>12.1}{most:>12.1}{:>8.2}", "4 GiB laid out", ours / fill);
    if let Some(theirs) = original::layout(0, PAGES) {
        println!(
            "{:<39}{:>12.2}{:>12.2}{:>8.2}",
            "the same, ms (Rattle, original)",
            ours / 1e6,
            theirs / 1e6,
            ours / theirs
        );
    }
}
