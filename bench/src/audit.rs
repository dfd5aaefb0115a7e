//! The audit of whole stores, in Rattle and in plain Rust.

use std::hint::black_box;

use crate::{clock::best, plain_audit, rattle, whole::Store};

type Audit = fn(&[u64], &[u8], usize, usize) -> u32;

/// The most managed pages of a store: 1,048,576 with their tables.
const MOST: usize = 1_040_384;

const PAGES: [usize; 6] = [1 << 10, 1 << 12, 1 << 14, 1 << 16, 1 << 18, MOST];

/// Pages that a side passes over in one turn of the clock, at least.
const PAGES_A_TURN: usize = 65_536;

pub fn run() {
    println!(
        "\n{:<28}{:>11}{:>10}{:>11}{:>8}{:>10}{:>8}",
        "audit, ns a page", "pages", "Rattle", "both ends", "ratio", "one end", "ratio"
    );
    for pages in PAGES {
        lists("small frames in page order", &Store::listed(pages, 0));
    }
    for pages in PAGES {
        lists("small frames shuffled", &Store::shuffled(pages));
    }
    huge();
    small();
}

/// The times of the sides for one call, by turns. They must agree, and say
/// `answer`.
fn times<const N: usize>(store: &Store, audits: [Audit; N], answer: u32, turns: usize) -> [f64; N] {
    let pages = store.records.len() / 16;
    let mut runs = black_box(audits).map(|audit| {
        move || {
            let Store { words, records, memory_len, queue_len } = black_box(store);
            assert_eq!(audit(words, records, *memory_len, *queue_len), answer);
        }
    });
    let calls = PAGES_A_TURN.div_ceil(pages.max(16));
    best(turns, calls, runs.each_mut().map(|run| run as &mut dyn FnMut()))
}

fn lists(name: &str, store: &Store) {
    let pages = store.records.len() / 16;
    let audits: [Audit; 3] =
        [rattle::audit, plain_audit::audit::<true>, plain_audit::audit::<false>];
    let turns = if pages > 100_000 { 60 } else { 200 };
    let [ours, both, one] = times(store, audits, 0, turns).map(|time| time / pages as f64);
    let ratios = [ours / both, ours / one];
    println!(
        "{name:<28}{pages:>11}{ours:>10.2}{both:>11.2}{:>8.2}{one:>10.2}{:>8.2}",
        ratios[0], ratios[1]
    );
}

/// Three frames of 1 GiB, whose audit is a test of 12 MiB of zeros.
fn huge() {
    let store = Store::listed(3 * 262_144, 2);
    let audits: [Audit; 3] = [rattle::audit, plain_audit::audit::<true>, read];
    let [ours, plain, read] = times(&store, audits, 0, 200);
    let rate = |time: f64| store.records.len() as f64 / time;
    println!(
        "\n{:<39}{:>10}{:>11}{:>8}{:>10}{:>8}",
        "GB/s of records", "Rattle", "Rust", "ratio", "read", "ratio"
    );
    println!(
        "{:<39}{:>10.1}{:>11.1}{:>8.2}{:>10.1}{:>8.2}",
        "3 frames of 1 GiB",
        rate(ours),
        rate(plain),
        ours / plain,
        rate(read),
        ours / read
    );
}

/// Adds all words of the records up.
fn read(_: &[u64], records: &[u8], _: usize, _: usize) -> u32 {
    let words = records.chunks_exact(8).map(|word| u64::from_ne_bytes(word.try_into().unwrap()));
    black_box(words.fold(0, u64::wrapping_add));
    0
}

/// A store of 16 pages, and how far the audit gets on others like it.
fn small() {
    println!(
        "\n{:<39}{:>10}{:>11}{:>8}",
        "audit of 16 pages, ns a call", "Rattle", "Rust", "ratio"
    );
    let no_state = Store { words: vec![1; 100], ..Store::listed(16, 0) };
    let short = Store { records: Vec::new(), ..Store::listed(16, 0) };
    let mut torn = Store::listed(16, 0);
    torn.words[10] = 1;
    let cases = [
        ("100 words, which are no state", no_state, 6),
        ("no row", Store::empty(), 0),
        ("no records: words, the row", short, 6),
        ("a torn last list: and the scan, the lists", torn, 6),
        ("16 frames held: all, but no list walked", Store::held(16), 0),
        ("16 frames listed: all", Store::listed(16, 0), 0),
        ("16 frames listed, shuffled: all", Store::shuffled(16), 0),
    ];
    for (name, store, answer) in cases {
        let audits: [Audit; 2] = [rattle::audit, plain_audit::audit::<true>];
        let [ours, theirs] = times(&store, audits, answer, 400);
        println!("{name:<39}{ours:>10.1}{theirs:>11.1}{:>8.2}", ours / theirs);
    }
}
