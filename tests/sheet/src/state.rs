//! All that a later call is given: the state by value, the records' bytes, and
//! the lengths of the other two loans, at whose contents the sheet never looks.
//! The state also as the 64-bit words that the exported audit takes.

use std::rc::Rc;

pub const PAGE: u64 = 4096;

pub const ADMITTED: u32 = 1;
pub const ALLOCATED: u32 = 2;
pub const ZEROED: u32 = 4;
pub const KERNEL: u32 = 8;

pub const ROWS: usize = 8;
pub const LISTS: usize = 6;

/// A row's numbers: its start, its pages, and three for each list.
const ROW: usize = 2 + 3 * LISTS;
const QUEUED: usize = ROW * ROWS;
const COUNTERS: usize = QUEUED + 3;
/// The numbers of a state, in the order of its words.
pub const NUMBERS: usize = COUNTERS + 9;

/// The words in which a state is lent: a version, two numbers of a list in one, and
/// behind the counters words without a meaning.
pub const WORDS: usize = 512;
/// Those that have one.
pub const MEANT: usize = 101;
pub const VERSION: u64 = 2;

#[derive(Clone, Copy, Default)]
pub struct Links {
    pub front: u32,
    pub back: u32,
    pub count: u32,
}

#[derive(Clone, Copy, Default)]
pub struct Row {
    pub start: u64,
    /// Its tables included.
    pub pages: u64,
    /// Dirty and zeroed at each level.
    pub lists: [Links; LISTS],
}

#[derive(Clone, Copy, Default)]
pub struct Counters {
    pub kernel_used: u64,
    pub page_data: u64,
    pub idle: u64,
    pub total: u64,
    pub allocated: u64,
    pub freed: u64,
    pub reclaimed: u64,
    pub waiting: u64,
    pub pager_outstanding: u64,
}

#[derive(Clone, Copy, Default)]
pub struct Pass {
    pub rounds: u64,
    pub freed: u64,
}

#[derive(Clone, Copy, Default)]
pub struct State {
    pub rows: [Row; ROWS],
    pub counters: Counters,
    /// The addresses in the queue.
    pub queued: u64,
    pub pass: Pass,
}

/// A state with its loans. Copies share the records until one is changed.
#[derive(Clone)]
pub struct Table {
    pub state: State,
    pub records: Rc<Vec<u8>>,
    pub memory_len: usize,
    pub queue_len: usize,
}

/// The record of a page: four little-endian numbers.
#[derive(Clone, Copy, Default)]
pub struct Record {
    pub marks: u32,
    pub level: u32,
    pub earlier: u32,
    pub later: u32,
}

impl Record {
    pub const BYTES: usize = 16;

    pub fn read(records: &[u8], page: u64) -> Record {
        let at = page as usize * Self::BYTES;
        let number = |k| u32::from_le_bytes(records[at + k..at + k + 4].try_into().unwrap());
        Record { marks: number(0), level: number(4), earlier: number(8), later: number(12) }
    }

    pub fn write(self, records: &mut [u8], page: u64) {
        let numbers = [self.marks, self.level, self.earlier, self.later];
        for (k, number) in numbers.into_iter().enumerate() {
            let at = page as usize * Self::BYTES + 4 * k;
            records[at..at + 4].copy_from_slice(&number.to_le_bytes());
        }
    }
}

/// "table pages = ceil(32 × pages / 4096)".
pub fn table_pages(pages: u64) -> u64 {
    (32 * pages).div_ceil(PAGE)
}

/// The pages of a frame.
pub fn size(level: u32) -> u64 {
    512u64.pow(level)
}

impl Table {
    pub fn record(&self, page: u64) -> Record {
        Record::read(&self.records, page)
    }

    pub fn change(&mut self, page: u64, change: impl FnOnce(&mut Record)) {
        let mut record = self.record(page);
        change(&mut record);
        record.write(self.bytes(), page);
    }

    pub fn bytes(&mut self) -> &mut Vec<u8> {
        Rc::make_mut(&mut self.records)
    }
}

/// The first word: the version, and how many rows are in use.
pub fn version(used: usize) -> u64 {
    VERSION | (used as u64) << 32
}

impl State {
    /// The managed pages of the rows.
    pub fn managed(&self) -> u64 {
        self.rows.iter().map(|row| row.pages - table_pages(row.pages)).sum()
    }

    pub fn numbers(&self) -> [u64; NUMBERS] {
        let mut numbers = [0; NUMBERS];
        let mut rest = numbers.iter_mut();
        let mut put = |number: u64| *rest.next().unwrap() = number;
        for row in &self.rows {
            put(row.start);
            put(row.pages);
            for list in row.lists {
                [list.front, list.back, list.count].into_iter().for_each(|n| put(n.into()));
            }
        }
        [self.queued, self.pass.rounds, self.pass.freed].into_iter().for_each(&mut put);
        let Counters { kernel_used, page_data, idle, total, allocated, .. } = self.counters;
        let Counters { freed, reclaimed, waiting, pager_outstanding, .. } = self.counters;
        [kernel_used, page_data, idle, total, allocated].into_iter().for_each(&mut put);
        [freed, reclaimed, waiting, pager_outstanding].into_iter().for_each(put);
        numbers
    }

    /// The state as it is lent, all rows in use.
    pub fn words(&self) -> [u64; WORDS] {
        let mut words = [version(ROWS); WORDS];
        let mut rest = words[1..].iter_mut();
        let mut put = |word: u64| *rest.next().unwrap() = word;
        let numbers = self.numbers();
        let (rows, others) = numbers.split_at(QUEUED);
        for row in rows.chunks_exact(ROW) {
            row[..2].iter().for_each(|&number| put(number));
            for lists in row[2..].chunks_exact(6) {
                let places = [(0, 1), (3, 4), (2, 5)];
                places.into_iter().for_each(|(a, b)| put(lists[a] | lists[b] << 32));
            }
        }
        others.iter().for_each(|&number| put(number));
        words
    }

    /// The state of such numbers; of a list's, the low 32 bits.
    pub fn of(numbers: &[u64; NUMBERS]) -> State {
        let mut rest = numbers.iter().copied();
        let mut number = || rest.next().unwrap();
        let mut state = State::default();
        for row in &mut state.rows {
            (row.start, row.pages) = (number(), number());
            for list in &mut row.lists {
                let [front, back, count] = [(); 3].map(|()| number() as u32);
                *list = Links { front, back, count };
            }
        }
        state.queued = number();
        state.pass = Pass { rounds: number(), freed: number() };
        let [kernel_used, page_data, idle, total, allocated] = [(); 5].map(|()| number());
        let [freed, reclaimed, waiting, pager_outstanding] = [(); 4].map(|()| number());
        state.counters = Counters {
            kernel_used,
            page_data,
            idle,
            total,
            allocated,
            freed,
            reclaimed,
            waiting,
            pager_outstanding,
        };
        state
    }
}

/// What a number of the state is.
#[derive(Clone, Copy, PartialEq)]
pub enum Number {
    Start,
    Pages,
    List,
    Counter,
    Queued,
    Pass,
}

/// A number's kind and its name.
pub fn number(at: usize) -> (Number, String) {
    let names = "kernel_used page_data idle total allocated freed reclaimed waiting \
                 pager_outstanding";
    match (at / ROW, at % ROW) {
        (row, 0) if row < ROWS => (Number::Start, format!("row {row}'s start")),
        (row, 1) if row < ROWS => (Number::Pages, format!("row {row}'s pages")),
        (row, k) if row < ROWS => {
            let number = ["front", "back", "count"][(k - 2) % 3];
            (Number::List, format!("row {row}'s list {}'s {number}", (k - 2) / 3))
        }
        _ if at == QUEUED => (Number::Queued, "the queue's count".into()),
        _ if at < COUNTERS => {
            (Number::Pass, format!("the pass's {}", ["rounds", "freed"][at - QUEUED - 1]))
        }
        _ => (Number::Counter, names.split_whitespace().nth(at - COUNTERS).unwrap().into()),
    }
}
