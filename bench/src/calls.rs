//! Whole calls, each with its audit: grants, frees and finds on a store of 16
//! pages against the kernel's own, and the contents of frames against memset and
//! memmove.

use std::{hint::black_box, ptr};

use crate::{
    clock::best,
    original,
    rattle::{self, Calls, Loans},
};

pub const PAGE: usize = 4096;

/// The first managed page of a store, where a frame of 1 GiB may start.
pub const FIRST: u64 = 1 << 30;

/// Calls of a driver in one turn of the clock. It boots first, which is as much as
/// a call or two.
pub const TIMES: usize = 2000;

pub const TURNS: usize = 200;

pub fn run() {
    grants();
    println!(
        "\n{:<28}{:>11}{:>12}{:>12}{:>8}{:>12}",
        "contents, ns a call", "bytes", "Rattle", "plain", "ratio", "a find"
    );
    contents(loans(16), PAGE, TIMES);
    contents(loans(1024), 512 * PAGE, 10);
}

/// The start and the length of a region of so many pages behind its tables.
pub fn region(managed: usize) -> (u64, usize) {
    let tables = |pages: usize| pages.div_ceil(128);
    let pages = (managed..).find(|&pages| pages - tables(pages) == managed).unwrap();
    (FIRST - (tables(pages) * PAGE) as u64, pages * PAGE)
}

pub fn loans(managed: usize) -> Loans {
    let (start, length) = region(managed);
    Loans {
        records: vec![1; managed * 16],
        memory: vec![1; managed * PAGE],
        queue: vec![0; 64],
        start,
        length,
    }
}

/// Calls a driver so often, and all must be accepted.
pub fn drive(driver: Calls, loans: &mut Loans, number: u64, times: usize) {
    assert_eq!(black_box(driver)(loans, number, times), times, "a call was refused");
}

fn grants() {
    heading("16 pages, ns a call");
    let mut loans = loans(16);
    let theirs = original::boot(loans.start, loans.length);
    against(
        "a grant and its free, a pair",
        TIMES,
        &mut || drive(rattle::grants_and_frees, &mut loans, 0, TIMES),
        theirs.as_ref(),
        |it| (it.grants_and_frees)(TIMES),
    );
    against(
        "a find",
        TIMES,
        &mut || drive(rattle::finds, &mut loans, FIRST, TIMES),
        theirs.as_ref(),
        |it| (it.finds)(FIRST, TIMES),
    );
}

pub fn heading(name: &str) {
    println!(
        "\n{name:<39}{:>12}{:>14}{:>8}{:>14}{:>8}",
        "Rattle", "no lock", "ratio", "its own lock", "ratio"
    );
}

/// A row: one of so many calls against the original's, where that was built.
pub fn against(
    name: &str,
    times: usize,
    ours: &mut dyn FnMut(),
    theirs: Option<&[original::Calls; 2]>,
    call: impl Fn(&original::Calls),
) {
    let each = |time: f64| time / times as f64;
    match theirs {
        Some([free, locked]) => {
            let sides: [&mut dyn FnMut(); 3] = [ours, &mut || call(free), &mut || call(locked)];
            let [a, b, c] = best(TURNS, 1, sides).map(each);
            println!("{name:<39}{a:>12.1}{b:>14.1}{:>8.2}{c:>14.1}{:>8.2}", a / b, a / c);
        }
        None => {
            let [a] = best(TURNS, 1, [ours]).map(each);
            println!("{name:<39}{a:>12.1}{0:>14}{0:>8}{0:>14}{0:>8}", "-");
        }
    }
}

/// All of a frame of so many bytes, and the same number of bytes of another loan.
/// The finds are of the same store right after its boot.
fn contents(mut loans: Loans, size: usize, times: usize) {
    let [find] = best(TURNS, 1, [&mut || drive(rattle::finds, &mut loans, FIRST, TIMES)]);
    let find = find / TIMES as f64;
    let mut memory = vec![1; loans.memory.len()];
    let mut time = |name: &str, driver: Calls, plain: fn(*mut u8, usize)| {
        let mut ours = || drive(driver, &mut loans, size as u64, times);
        let mut theirs = || {
            for _ in 0..times {
                black_box(plain)(black_box(memory.as_mut_ptr()), black_box(size));
            }
        };
        let [a, b] = best(TURNS, 1, [&mut ours, &mut theirs]).map(|time| time / times as f64);
        println!("{name:<28}{size:>11}{a:>12.1}{b:>12.1}{:>8.2}{find:>12.1}", a / b);
    };
    // Safety: `contents` lends two frames of `size` bytes.
    time("zero, memset", rattle::zero, |at, size| unsafe { ptr::write_bytes(at, 0, size) });
    time("fill, memset", rattle::fill, |at, size| unsafe { ptr::write_bytes(at, 85, size) });
    time("copy, memmove", rattle::copy, |at, size| unsafe { ptr::copy(at.add(size), at, size) });
    let filled = |bytes: &[u8]| bytes.iter().filter(|&&byte| byte == 85).count();
    assert_eq!(filled(&loans.memory), 2 * size, "the frame that was filled, and its copy");
}
