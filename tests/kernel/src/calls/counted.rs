//! The calls by number, on counters of their own.

use jilakkor::{CountedStore, Counters, Error, Op, STATS_BYTES};
use script::case::MARGIN;

use super::{example, exported::prepared, same, Checked, EXAMPLE_PAGES};
use crate::{
    ffi::{self, Lent},
    lot::Lot,
};

pub fn all() -> Checked {
    through_the_crate()?;
    booted()?;
    no_such_op()?;
    numbers()?;
    bytes()?;
    maps()
}

/// The ops of the enum, in the order of their numbers.
pub const OPS: [Op; 19] = [
    Op::Alloc,
    Op::Take,
    Op::Split,
    Op::Free,
    Op::Zero,
    Op::Dirty,
    Op::Find,
    Op::Queue,
    Op::Fill,
    Op::Copy,
    Op::Pcopy,
    Op::Round,
    Op::Lend,
    Op::Back,
    Op::Low,
    Op::Write,
    Op::Read,
    Op::Stats,
    Op::Boot,
];

/// A call with its numbers, and what it answers.
type Answered = (Op, &'static [u64], Result<[u64; 2], Error>);

const FRAME: u64 = 0x10F000;
const OTHER: u64 = 0x10E000;

/// Where the words' own counters start.
const COUNTERS: usize = 92;

const CALLS: [Answered; 17] = [
    (Op::Alloc, &[4096, 4096, 2], Ok([FRAME, 4096])),
    (Op::Take, &[1, 1], Ok([OTHER, 4096])),
    (Op::Split, &[FRAME], Ok([FRAME, 4096])),
    (Op::Zero, &[FRAME], Ok([FRAME, 4096])),
    (Op::Dirty, &[FRAME], Ok([FRAME, 4096])),
    (Op::Find, &[FRAME + 9], Ok([FRAME, 4096])),
    (Op::Queue, &[OTHER], Ok([OTHER, 4096])),
    (Op::Queue, &[OTHER], Err(Error::QueueFull)),
    (Op::Fill, &[FRAME, 7, 8, 9], Ok([FRAME, 8])),
    (Op::Copy, &[FRAME, 0, OTHER, 1, 2], Ok([FRAME, 2])),
    (Op::Pcopy, &[FRAME, 0, 0x101000, 3], Ok([FRAME, 3])),
    (Op::Round, &[], Ok([0, 0])),
    (Op::Lend, &[3], Ok([0, 3])),
    (Op::Back, &[2], Ok([0, 1])),
    (Op::Low, &[], Ok([0, 0])),
    (Op::Free, &[FRAME], Ok([FRAME, 4096])),
    (Op::Free, &[FRAME], Err(Error::NotHeld)),
];

fn through_the_crate() -> Checked {
    let mut lot = Lot::new(EXAMPLE_PAGES, 1);
    let mut counters = lot.boot(&example())?.stats();
    // The words' own counters are nobody's.
    lot.words[MARGIN + COUNTERS..][..9].fill(7);
    let Lent { words, records, memory, queue, .. } = lot.lent();
    let mut store = CountedStore::resume(&mut counters, words, records, memory, queue)?;
    for (op, numbers, expected) in CALLS {
        same(&format!("{op:?}"), store.call(op, numbers, &mut []), expected)?;
    }
    let expected = Counters {
        page_data: 1,
        idle: 15,
        total: 16,
        allocated: 2,
        freed: 1,
        pager_outstanding: 1,
        ..Counters::default()
    };
    same("counters", *store.counters(), expected)?;
    counters.idle += 1;
    let Lent { words, records, memory, queue, .. } = lot.lent();
    let torn = CountedStore::resume(&mut counters, words, records, memory, queue);
    same("torn counters", torn.err(), Some(Error::Torn))
}

/// A store that was never in the other form.
fn booted() -> Checked {
    let mut lot = Lot::new(EXAMPLE_PAGES, 1);
    let mut counters = Counters { idle: 77, ..Counters::default() };
    let Lent { words, records, memory, queue, .. } = lot.lent();
    let map = example();
    let mut store = CountedStore::boot(&mut counters, words, records, memory, queue, &map)?;
    let expected = Counters { idle: 16, total: 16, ..Counters::default() };
    same("counters", *store.counters(), expected)?;
    same("a grant", store.call(Op::Alloc, &[1, 1], &mut []), Ok([FRAME, 4096]))?;
    same("a write", store.call(Op::Write, &[FRAME, 7], &mut *b"abc".to_vec()), Ok([FRAME, 3]))?;
    let place = 14 * 4096 + 7;
    same("a read", store.call(Op::Read, &[FRAME, 7, 3], &mut []), Ok([place, 3]))?;
    let expected = b"memory status (in frames):
       total: 16 -- a: 1 f: 0 r: 0, 0 waiters
        idle: 15 93%
      kernel: 0 0%
        page: 1 6% (0 loaned)
";
    let mut text = [b'*'; STATS_BYTES];
    let length = expected.len();
    same("statistics", store.call(Op::Stats, &[], &mut text), Ok([0, length as u64]))?;
    same("their text", &text[..length], expected)?;
    same("behind it", &text[length..], &[b'*'; STATS_BYTES][length..])?;
    same("the memory", &lot.memory[MARGIN..][place as usize..][..3], b"abc")?;
    let Lent { words, records, memory, queue, .. } = lot.lent();
    let long = [map[0]; 12];
    let refused = CountedStore::boot(&mut counters, words, records, memory, queue, &long);
    same("a long map", refused.err(), Some(Error::LongMap))
}

/// Whatever is lent.
fn no_such_op() -> Checked {
    for (op, version) in [(19, 2), (19, 1), (1 << 32, 2), (u64::MAX, 2)] {
        let (mut lot, mut counters) = prepared()?;
        lot.words[MARGIN] = version;
        let (before, counted) = (lot.clone(), counters);
        same("an op", ffi::call(&mut counters, lot.lent(), op, &[1; 5], &mut [9; 400]), 17)?;
        same("an op", lot.difference(&before), None)?;
        same("an op", counters, counted)?;
    }
    Ok(())
}

/// Missing numbers count as 0, and the words' own counters are not read.
fn numbers() -> Checked {
    let (mut lot, mut counters) = prepared()?;
    lot.words[MARGIN + COUNTERS..].fill(7);
    let mut call = |op: Op, numbers: &[u64]| {
        let returned = ffi::call(&mut counters, lot.lent(), op as u64, numbers, &mut []);
        (returned, lot.answered())
    };
    let last = [FRAME, 4096];
    same("a lookup", call(Op::Find, &[FRAME]), (0, last))?;
    same("no address", call(Op::Free, &[]), (11, last))?;
    same("no alignment", call(Op::Alloc, &[4096]), (7, last))?;
    same("no size", call(Op::Alloc, &[0, 1]), (0, [OTHER, 4096]))?;
    same("no length", call(Op::Fill, &[FRAME, 4096]), (0, [FRAME, 0]))?;
    same("no count", call(Op::Back, &[]), (0, [0, 0]))?;
    for (op, number) in OPS.into_iter().zip(0..) {
        same("a number", op as u64, number)?;
    }
    Ok(())
}

/// Only the statistics write the bytes, and only where there is room.
fn bytes() -> Checked {
    for (op, numbers, number) in [
        (Op::Free, &[FRAME][..], 0),
        (Op::Write, &[FRAME, 5], 0),
        (Op::Write, &[FRAME, 4000], 14),
        (Op::Read, &[FRAME, 1, 2], 0),
        (Op::Read, &[OTHER, 1, 2], 13),
        (Op::Stats, &[], 6),
        (Op::Boot, &[0x100000, 0x10000, 0], 0),
    ] {
        let (mut lot, mut counters) = prepared()?;
        let (before, counted) = (lot.clone(), counters);
        let mut bytes = [b'*'; STATS_BYTES - 1];
        let returned = ffi::call(&mut counters, lot.lent(), op as u64, numbers, &mut bytes);
        same("a call with bytes", (op, returned), (op, number))?;
        same("its bytes", bytes, [b'*'; STATS_BYTES - 1])?;
        if number != 0 {
            same("a refused call", lot.difference(&before), None)?;
            same("a refused call", counters, counted)?;
        }
    }
    Ok(())
}

/// Maps as numbers: not in threes, of no entry, with the lowest number that applies
/// beside short loans.
fn maps() -> Checked {
    let far = [1 << 41, 1, 0];
    for (numbers, number) in [
        (&[0x100000, 0x10000][..], 17),
        (&[0x100000, 0x10000, 0, 0], 17),
        (&far, 2),
        (&far.repeat(9), 1),
        (&far.repeat(9)[1..], 17),
    ] {
        let (mut lot, mut counters) = prepared()?;
        let (before, counted) = (lot.clone(), counters);
        let Lent { words, records, memory, queue, answer } = lot.lent();
        let lent = Lent { words: &mut words[..511], records, memory, queue, answer };
        let returned = ffi::call(&mut counters, lent, Op::Boot as u64, numbers, &mut []);
        same("a map", returned, number)?;
        same("a map", lot.difference(&before), None)?;
        same("a map", counters, counted)?;
    }
    for few in [0, 92, 101, 511] {
        let (mut lot, mut counters) = prepared()?;
        let Lent { words, records, memory, queue, answer } = lot.lent();
        let lent = Lent { words: &mut words[..few], records, memory, queue, answer };
        let usable = [0x100000, 0x10000, 0];
        same("few words", ffi::call(&mut counters, lent, Op::Boot as u64, &usable, &mut []), 5)?;
    }
    Ok(())
}
