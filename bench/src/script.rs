//! The run of a whole script on the program's loans against the oracle on the same
//! lines: the kernel's calls with a line reader in Rust, which looks before each
//! call whether it is on common ground. No buffer is cleared first on either side.

use std::hint::black_box;

use crate::{clock::best, original, rattle};

const MAP: &str = "region,1048576,65536,0\nboot\n";

/// Leaves the store as it found it.
const CALLS: &str = "\
alloc,4096,4096,0
alloc,4096,4096,0
find,1110016
fill,1110016,0,64,85
copy,1105920,0,1110016,0,64
pcopy,1105920,64,1110016,64
dirty,1105920
low
free,1105920
free,1110016
";

/// So many times in one script.
const TIMES: usize = 200;

const TURNS: usize = 30;

pub fn run() {
    let calls = CALLS.repeat(TIMES);
    let lines = calls.lines().count();
    let script = format!("{MAP}{calls}");
    let mut loans = rattle::Script::new(script.lines().count());
    let mut ours = || assert!(black_box(&mut loans).run(script.as_bytes()) > 0);
    println!("\n{:<39}{:>12}{:>12}{:>8}", "16 pages, lines a second", "Rattle", "oracle", "ratio");
    let speed = |time: f64| lines as f64 * 1e9 / time;
    match original::Lines::boot(MAP) {
        Some(mut theirs) => {
            let mut theirs = || theirs.answer(&calls);
            let [a, b] = best(TURNS, 1, [&mut ours, &mut theirs]).map(speed);
            println!("{:<39}{a:>12.0}{b:>12.0}{:>8.2}", "a script of 2,000 lines", a / b);
        }
        None => {
            let [a] = best(TURNS, 1, [&mut ours]).map(speed);
            println!("{:<39}{a:>12.0}{:>12}{:>8}", "a script of 2,000 lines", "-", "-");
        }
    }
}
