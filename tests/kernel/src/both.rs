//! Both forms of the counters side by side: each call of a script on the words, and
//! by its number on words and a struct of the counters.

use script::{
    case::{lent, lent_mut},
    model::{Answer, Asked, Call, Entry, Range, Told},
};

use crate::{
    ffi::{self, Lent},
    lot::Lot,
    play::{watched, Caller},
};

/// The counters as a kernel may keep them.
#[repr(C)]
#[derive(Clone, Copy, Debug, Default, PartialEq)]
pub struct Counters {
    pub kernel_used: usize,
    pub page_data: usize,
    pub idle: usize,
    pub total: usize,
    pub allocated: usize,
    pub freed: usize,
    pub reclaimed: usize,
    pub waiting: usize,
    pub pager_outstanding: usize,
}

extern "C" {
    /// A slice is passed as its address and its length.
    fn jilakkor_call(
        counters: *mut Counters,
        words: *mut u64,
        words_len: usize,
        records: *mut u8,
        records_len: usize,
        memory: *mut u8,
        memory_len: usize,
        queue: *mut u64,
        queue_len: usize,
        answer: *mut u64,
        answer_len: usize,
        op: u64,
        numbers: *const u64,
        numbers_len: usize,
        bytes: *mut u8,
        bytes_len: usize,
    ) -> u32;
}

/// Where the words' own counters start and end.
const COUNTERS: usize = 92;
const BEHIND: usize = 101;

/// What stands there in the other form, which leaves it alone.
const NOBODYS: u64 = 0x5eed;

/// The ops beyond those that answer by numbers.
const WRITE: u64 = 15;
const READ: u64 = 16;
const STATS: u64 = 17;
const BOOT: u64 = 18;

/// Fills of more bytes are not made as writes.
const MOST_WRITTEN: u64 = 1 << 22;

/// The second of the two, with a lot of its own.
#[derive(Default)]
pub struct Both {
    counted: Option<(Counters, Lot)>,
    calls: u64,
}

impl Caller for Both {
    fn boot(&mut self, map: &[Entry], lot: &mut Lot) -> Result<Answer, String> {
        let mut other = lot.clone();
        // Noise, as all of the words are before the boot.
        let mut counters = taken(lent_mut(&mut other.words));
        let entry = |it: &Entry| ffi::Entry { start: it.start, length: it.length, kind: it.kind };
        let entries: Vec<ffi::Entry> = map.iter().map(entry).collect();
        let first = watched(lot, |lot| {
            let returned = ffi::boot(&entries, lot.lent());
            Ok(answer(returned, lot))
        })?;
        let numbers: Vec<u64> = map.iter().flat_map(|it| [it.start, it.length, it.kind]).collect();
        let returned = by_number(BOOT, &numbers, &mut [], &mut counters, &mut other);
        agrees(BOOT, returned, &first)?;
        same(lot, &counters, &other)?;
        self.counted = first.is_ok().then_some((counters, other));
        Ok(first)
    }

    /// A fill may be made as a write, which does the same, and follows a read of what
    /// it is to fill.
    fn call(&mut self, call: &Call, lot: &mut Lot) -> Result<Answer, String> {
        let (mut op, mut numbers) = numbers(call);
        let mut bytes = vec![b'*'; 400];
        if let Call::Fill(range, byte) = *call {
            self.read(range, lot)?;
            if self.calls % 2 == 0 && range.length <= MOST_WRITTEN {
                (op, numbers) = (WRITE, [range.address, range.offset, 0, 0, 0]);
                bytes = vec![byte; range.length as usize];
            }
        }
        let (answer, bytes) = self.in_both(op, numbers, &bytes, lot)?;
        match answer {
            Ok(Told::Numbers(_, length)) if op == STATS => text(&bytes, length as usize),
            answer => Ok(answer),
        }
    }
}

impl Both {
    /// What is read is a part of the memory.
    fn read(&mut self, range: Range, lot: &mut Lot) -> Result<(), String> {
        let Range { address, offset, length } = range;
        let (answer, _) = self.in_both(READ, [address, offset, length, 0, 0], b"left", lot)?;
        match answer {
            Ok(Told::Numbers(place, found)) => {
                let end = place.checked_add(found).filter(|_| found == length);
                let inside = end.is_some_and(|end| end <= lent(&lot.memory).len() as u64);
                inside.then_some(()).ok_or("what is read is no part of the memory".into())
            }
            _ => Ok(()),
        }
    }

    /// Makes a call in both forms: its answer, and what it left of the bytes.
    fn in_both(
        &mut self,
        op: u64,
        numbers: [u64; 5],
        bytes: &[u8],
        lot: &mut Lot,
    ) -> Result<(Answer, Vec<u8>), String> {
        let (counters, other) = self.counted.as_mut().ok_or("no boot")?;
        self.calls += 1;
        let [mut bytes, mut others] = [bytes.to_vec(), bytes.to_vec()];
        let first = watched(lot, |lot| {
            let returned = on_words(op, numbers, &mut bytes, lot.lent());
            Ok(answer(returned, lot))
        })?;
        // Numbers that are missing count as 0.
        let given = numbers.iter().rposition(|&number| number != 0).map_or(0, |last| last + 1);
        let given = if self.calls % 2 == 0 { given } else { numbers.len() };
        let returned = by_number(op, &numbers[..given], &mut others, counters, other);
        agrees(op, returned, &first)?;
        same(lot, counters, other)?;
        if bytes != others {
            return Err(format!("the two forms of op {op} differ in bytes"));
        }
        Ok((first, bytes))
    }
}

fn agrees(op: u64, returned: u32, first: &Answer) -> Result<(), String> {
    match returned == first.as_ref().err().map_or(0, |&number| number.into()) {
        true => Ok(()),
        false => Err(format!("by its number, op {op} is refused {returned}")),
    }
}

/// Takes the counters out of the words; in the other form their place is nobody's.
fn taken(words: &mut [u64]) -> Counters {
    let counters = counters_in(words);
    words[COUNTERS..BEHIND].fill(NOBODYS);
    counters
}

fn counters_in(words: &[u64]) -> Counters {
    let counter = |place: usize| words[COUNTERS + place] as usize;
    Counters {
        kernel_used: counter(0),
        page_data: counter(1),
        idle: counter(2),
        total: counter(3),
        allocated: counter(4),
        freed: counter(5),
        reclaimed: counter(6),
        waiting: counter(7),
        pager_outstanding: counter(8),
    }
}

/// Whether both are left with the same state, loans and answer.
fn same(lot: &Lot, counters: &Counters, other: &Lot) -> Result<(), String> {
    let (words, kept) = (lent(&lot.words), lent(&other.words));
    let state = counters_in(words);
    if state != *counters {
        return Err(format!("the counters differ: {state:?} and {counters:?}"));
    }
    if kept[COUNTERS..BEHIND] != [NOBODYS; BEHIND - COUNTERS] {
        return Err("the words' own counters were written".into());
    }
    if words[..COUNTERS] != kept[..COUNTERS] || words[BEHIND..] != kept[BEHIND..] {
        return Err("the two forms differ in words".into());
    }
    match lot.difference(other) {
        Some(what) if what != "words" => Err(format!("the two forms differ in {what}")),
        _ => Ok(()),
    }
}

fn answer(returned: u32, lot: &Lot) -> Answer {
    let [address, bytes] = lot.answered();
    match returned {
        0 => Ok(Told::Numbers(address, bytes)),
        number => Err(number as u8),
    }
}

/// The statistics, and nothing written behind them.
fn text(bytes: &[u8], length: usize) -> Result<Answer, String> {
    if bytes[length..].iter().any(|&byte| byte != b'*') {
        return Err("the text was written behind its end".into());
    }
    Ok(Ok(Told::Text(String::from_utf8_lossy(&bytes[..length]).into())))
}

/// Lent words, and the counters beside them.
fn by_number(
    op: u64,
    numbers: &[u64],
    bytes: &mut [u8],
    counters: &mut Counters,
    lot: &mut Lot,
) -> u32 {
    let Lent { words, records, memory, queue, answer } = lot.lent();
    // Safety: the counters and all slices are lent for the call.
    unsafe {
        jilakkor_call(
            counters,
            words.as_mut_ptr(),
            words.len(),
            records.as_mut_ptr(),
            records.len(),
            memory.as_mut_ptr(),
            memory.len(),
            queue.as_mut_ptr(),
            queue.len(),
            answer.as_mut_ptr(),
            answer.len(),
            op,
            numbers.as_ptr(),
            numbers.len(),
            bytes.as_mut_ptr(),
            bytes.len(),
        )
    }
}

/// The number of a call, and its numbers.
fn numbers(call: &Call) -> (u64, [u64; 5]) {
    let asked = |it: &Asked| {
        let flags = u64::from(it.zeroed) + 2 * u64::from(it.kernel) + 4 * u64::from(it.wait_ok);
        [it.size, it.align, flags, 0, 0]
    };
    let one = |number: u64| [number, 0, 0, 0, 0];
    match *call {
        Call::Alloc(ref it) => (0, asked(it)),
        Call::Take(ref it) => (1, asked(it)),
        Call::Split(address) => (2, one(address)),
        Call::Free(address) => (3, one(address)),
        Call::Zero(address) => (4, one(address)),
        Call::Dirty(address) => (5, one(address)),
        Call::Find(address) => (6, one(address)),
        Call::Queue(address) => (7, one(address)),
        Call::Fill(range, byte) => (8, [range.address, range.offset, range.length, byte.into(), 0]),
        Call::Copy { target: to, source: from } => {
            (9, [to.address, to.offset, from.address, from.offset, to.length])
        }
        Call::Pcopy { target, source } => {
            (10, [target.address, target.offset, source, target.length, 0])
        }
        Call::Round => (11, one(0)),
        Call::Lend(pages) => (12, one(pages)),
        Call::Back(pages) => (13, one(pages)),
        Call::Low => (14, one(0)),
        Call::Stats => (STATS, one(0)),
    }
}

fn on_words(op: u64, n: [u64; 5], bytes: &mut [u8], lent: Lent) -> u32 {
    match op {
        0 => ffi::alloc(lent, n[0], n[1], n[2]),
        1 => ffi::take(lent, n[0], n[1], n[2]),
        2 => ffi::split(lent, n[0]),
        3 => ffi::free(lent, n[0]),
        4 => ffi::zero(lent, n[0]),
        5 => ffi::dirty(lent, n[0]),
        6 => ffi::find(lent, n[0]),
        7 => ffi::queue(lent, n[0]),
        8 => ffi::fill(lent, n[0], n[1], n[2], n[3]),
        9 => ffi::copy(lent, n[0], n[1], n[2], n[3], n[4]),
        10 => ffi::pcopy(lent, n[0], n[1], n[2], n[3]),
        11 => ffi::round(lent),
        12 => ffi::lend(lent, n[0]),
        13 => ffi::back(lent, n[0]),
        14 => ffi::low(lent),
        WRITE => ffi::write(lent, n[0], n[1], bytes),
        READ => ffi::read(lent, n[0], n[1], n[2]),
        _ => ffi::stats(lent, bytes),
    }
}
