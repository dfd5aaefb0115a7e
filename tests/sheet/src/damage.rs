//! Damages to a sound table: single bits, single numbers and short loans here,
//! links and rows in the files beside. A damaged table may still be whole: what
//! counts is that both judges say the same of it.

use crate::make;
use crate::random::Random;
use crate::state::{number, Number, Record, State, Table, NUMBERS};
use crate::tables::{Extent, Shape};
use crate::{links, rows};

/// A kind of damage by a short name.
pub type Kind = &'static str;

/// Each must tear some table.
pub const KINDS: [Kind; 28] = [
    "a record's bit",
    "a record's number",
    "a row's start",
    "a row's pages",
    "a list's number",
    "a counter",
    "the queue's count",
    "the pass",
    "a short loan",
    "a ring",
    "a node by itself",
    "a swap",
    "two lists",
    "another list",
    "no list",
    "a count",
    "lists swapped",
    "an exchange",
    "another page",
    "a grant by hand",
    "a split by hand",
    "rows swapped",
    "rows that overlap",
    "an odd start",
    "a gap row",
    "a far row",
    "a row of a page",
    "too many pages",
];

pub struct Damage {
    pub kind: Kind,
    /// What was changed.
    pub words: String,
    pub table: Table,
}

/// A sound table, what it was made from, and who takes its damages.
pub struct Damager<'a> {
    pub shape: &'a Shape,
    pub table: &'a Table,
    pub random: &'a mut Random,
    pub found: &'a mut dyn FnMut(Damage),
}

impl Damager<'_> {
    pub fn all(&mut self) {
        self.bits();
        self.record_numbers();
        self.state_numbers();
        self.loans();
        links::all(self);
        rows::all(self);
    }

    /// Damages a copy.
    pub fn try_on(&mut self, kind: Kind, words: String, change: impl FnOnce(&mut Table)) {
        let mut table = self.table.clone();
        change(&mut table);
        (self.found)(Damage { kind, words, table });
    }

    /// So many by the extent of the table's damages, of so many that there are.
    pub fn choose(&mut self, every: usize, chance: usize, few: usize) -> Vec<usize> {
        let count = match self.shape.extent {
            Extent::Every => return (0..every).collect(),
            Extent::Chance => chance,
            Extent::Few => few,
        };
        let count = if every == 0 { 0 } else { count };
        (0..count).map(|_| self.random.below(every as u64) as usize).collect()
    }

    /// Single bits of the records, those behind the last page among them.
    fn bits(&mut self) {
        for bit in self.choose(self.table.records.len() * 8, 2000, 30) {
            let (byte, mask) = (bit / 8, 1 << (bit % 8));
            let words = format!("bit {} of byte {byte} of the records is turned", bit % 8);
            self.try_on("a record's bit", words, |table| table.bytes()[byte] ^= mask);
        }
    }

    /// The four numbers of a record.
    fn record_numbers(&mut self) {
        type Field = fn(&mut Record) -> &mut u32;
        let fields: [(&str, Field); 4] = [
            ("marks", |it| &mut it.marks),
            ("level", |it| &mut it.level),
            ("earlier", |it| &mut it.earlier),
            ("later", |it| &mut it.later),
        ];
        let pages = self.table.state.managed();
        for page in self.choose(pages as usize, 100, 1) {
            let page = page as u64;
            for (name, field) in fields {
                let old = *field(&mut self.table.record(page));
                for new in self.numbers(old) {
                    let words = format!("page {page}'s {name} is {new} and not {old}");
                    self.try_on("a record's number", words, |table| {
                        table.change(page, |record| *field(record) = new);
                    });
                }
            }
        }
    }

    /// Other values of a 32-bit number.
    fn numbers(&mut self, old: u32) -> Vec<u32> {
        let pages = self.table.state.managed() as u32;
        let page = self.random.below(u64::from(pages) + 1) as u32;
        let mut all = vec![0, old.wrapping_add(1), old.wrapping_sub(1), page + 1];
        all.extend([pages, pages + 1, pages + 2, u32::MAX, 1 << 31, old ^ 1 << 16]);
        different(all, old)
    }

    /// Each number of the state. A list's number is 32 bits wide.
    fn state_numbers(&mut self) {
        for at in self.choose(NUMBERS, 2 * NUMBERS, 12) {
            let (kind, name) = number(at);
            let mut numbers = self.table.state.numbers();
            let old = numbers[at];
            let news = match kind {
                Number::List => self.numbers(old as u32).into_iter().map(u64::from).collect(),
                _ => self.wide_numbers(old),
            };
            for new in news {
                numbers[at] = new;
                let state = State::of(&numbers);
                let kind = match kind {
                    Number::Start => "a row's start",
                    Number::Pages => "a row's pages",
                    Number::List => "a list's number",
                    Number::Counter => "a counter",
                    Number::Queued => "the queue's count",
                    Number::Pass => "the pass",
                };
                let words = format!("{name} is {new} and not {old}");
                self.try_on(kind, words, |table| table.state = state);
            }
        }
    }

    /// Other values of a 64-bit number.
    fn wide_numbers(&mut self, old: u64) -> Vec<u64> {
        let pages = self.table.state.managed();
        let mut all = vec![0, old.wrapping_add(1), old.wrapping_sub(1), self.random.below(1000)];
        all.extend([pages, pages + 2, u32::MAX.into(), u64::MAX, 1 << 40, 1 << 52, 1 << 63]);
        all.extend([old.wrapping_add(1 << 32), self.random.next() << 32, old ^ 1 << 63]);
        all.extend([old.wrapping_add(4096), old.wrapping_sub(4096), old.wrapping_add(1 << 21)]);
        different(all, old)
    }

    /// Loans that are short by a byte or a place, or by half, or longer.
    fn loans(&mut self) {
        let pages = self.table.state.managed() as usize;
        let queued = self.table.state.queued as usize;
        let lengths = |need: usize| {
            let lengths = [need.checked_sub(1), Some(need / 2), Some(need), Some(need + 1)];
            lengths.into_iter().flatten()
        };
        for length in lengths(pages * Record::BYTES) {
            let words = format!("the records are {length} bytes long");
            self.try_on("a short loan", words, |table| table.bytes().resize(length, 1));
        }
        for length in lengths(pages * 4096).chain([usize::MAX]) {
            let words = format!("the memory is {length} bytes long");
            self.try_on("a short loan", words, |table| table.memory_len = length);
        }
        for length in lengths(queued).chain([usize::MAX]) {
            let words = format!("the queue has {length} places");
            self.try_on("a short loan", words, |table| table.queue_len = length);
        }
    }

    /// A table made anew, of another shape.
    pub fn try_shape(&mut self, kind: Kind, words: String, rows: Vec<(u64, u64)>) {
        let shape = Shape { rows, ..self.shape.clone() };
        let made = make::make(&shape, self.random);
        self.try_on(kind, format!("made anew with {words}"), |table| *table = made);
    }
}

fn different<T: Copy + Ord>(mut all: Vec<T>, old: T) -> Vec<T> {
    all.sort();
    all.dedup();
    all.retain(|&new| new != old);
    all
}
