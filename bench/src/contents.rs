//! The bytes of memory filled and copied with no call around: the crate contents
//! against memset and memmove of as many bytes. Both sides start at a page, as
//! frames do. A fill takes the next byte each time, so that none can be left out.

use std::{hint::black_box, ptr};

use crate::{
    calls::{PAGE, TIMES, TURNS},
    clock::best,
    rattle,
};

type Range = fn(&mut [u8], usize, usize) -> usize;

pub fn run() {
    println!(
        "\n{:<28}{:>11}{:>12}{:>12}{:>8}",
        "contents alone, ns", "bytes", "Rattle", "plain", "ratio"
    );
    for (size, times) in [(PAGE, TIMES), (512 * PAGE, 10)] {
        let (mut ours, mut theirs) = (vec![1; 2 * size + PAGE], vec![1; 2 * size + PAGE]);
        let (ours, theirs) = (at_page(&mut ours, size), at_page(&mut theirs, size));
        // Safety: `theirs` has twice `size` bytes.
        against(
            "fill, memset",
            [&mut *ours, &mut *theirs],
            times,
            rattle::fill_range,
            |at, size, turn| unsafe { ptr::write_bytes(at, turn as u8, size) },
        );
        assert!(ours == theirs && ours[0] == (times - 1) as u8, "the last turn's byte");
        against(
            "copy, memmove",
            [&mut *ours, &mut *theirs],
            times,
            rattle::copy_range,
            |at, size, _| unsafe { ptr::copy(at.add(size), at, size) },
        );
        assert!(ours == theirs && ours[0] == 1, "the bytes that were copied");
    }
}

/// Twice so many bytes from the first page of a memory on.
fn at_page(memory: &mut [u8], size: usize) -> &mut [u8] {
    let first = memory.as_ptr().align_offset(PAGE);
    &mut memory[first..first + 2 * size]
}

/// A row: half of the bytes, so many times on each side.
fn against(
    name: &str,
    [ours, theirs]: [&mut [u8]; 2],
    times: usize,
    driver: Range,
    plain: fn(*mut u8, usize, usize),
) {
    let size = ours.len() / 2;
    let mut ours = || assert_eq!(black_box(driver)(ours, size, times), times, "a range that fits");
    let mut theirs = || {
        for turn in 0..times {
            black_box(plain)(black_box(theirs.as_mut_ptr()), black_box(size), turn);
        }
    };
    let [a, b] = best(TURNS, 1, [&mut ours, &mut theirs]).map(|time| time / times as f64);
    println!("{name:<28}{size:>11}{a:>12.1}{b:>12.1}{:>8.2}", a / b);
}
