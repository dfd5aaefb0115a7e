//! All state of the kernel's allocator and tracker at one moment, in the terms
//! of the specification. Its text has one line each, fields parted by commas:
//!
//! - `region,START,PAGES,FIRST` for each kept region in map order: its rounded
//!   start, its pages with the table, its first managed address; then of it
//!   - `pages,ADDRESS,COUNT,MARKS,LEVEL` for each stretch of managed pages that
//!     have the same marks (1 ADMITTED, 2 ALLOCATED, 4 ZEROED, 8 KERNEL) and
//!     level, upwards; a page inside a larger frame has 0 and 0;
//!   - `list,LEVEL,ZEROED,ADDRESS,..` six times, front to back: level 0 dirty,
//!     level 0 zeroed, level 1 dirty, and so on;
//! - `counters,` and the nine: kernel_used, page_data, idle, total, allocated,
//!   freed, reclaimed, waiting, pager_outstanding;
//! - `queue,ADDRESS,..`, oldest first;
//! - `pass,ROUNDS,FREED`: worked rounds and frames freed, 0 and 0 between passes.

use std::{fmt, str::FromStr};

use crate::call::{number, BadLine};

#[derive(Clone, Debug, Default, PartialEq, Eq)]
pub struct Dump {
    pub regions: Vec<Region>,
    pub counters: [u64; 9],
    pub queue: Vec<u64>,
    pub pass: (u64, u64),
}

#[derive(Clone, Debug, Default, PartialEq, Eq)]
pub struct Region {
    pub start: u64,
    pub pages: u64,
    pub first: u64,
    /// One for each managed page, from `first` upwards.
    pub managed: Vec<Page>,
    /// At 2 × level + zeroed.
    pub lists: [Vec<u64>; 6],
}

#[derive(Clone, Copy, Debug, PartialEq, Eq)]
pub struct Page {
    pub marks: u8,
    pub level: u8,
}

impl fmt::Display for Dump {
    fn fmt(&self, f: &mut fmt::Formatter) -> fmt::Result {
        for region in &self.regions {
            writeln!(f, "region,{},{},{}", region.start, region.pages, region.first)?;
            let mut address = region.first;
            for stretch in region.managed.chunk_by(|page, next| page == next) {
                let Page { marks, level } = stretch[0];
                writeln!(f, "pages,{address},{},{marks},{level}", stretch.len())?;
                address += 4096 * stretch.len() as u64;
            }
            for (place, list) in region.lists.iter().enumerate() {
                writeln!(f, "list,{},{}{}", place / 2, place % 2, Numbers(list))?;
            }
        }
        writeln!(f, "counters{}", Numbers(&self.counters))?;
        writeln!(f, "queue{}", Numbers(&self.queue))?;
        writeln!(f, "pass,{},{}", self.pass.0, self.pass.1)
    }
}

/// Numbers with a comma before each.
struct Numbers<'a>(&'a [u64]);

impl fmt::Display for Numbers<'_> {
    fn fmt(&self, f: &mut fmt::Formatter) -> fmt::Result {
        self.0.iter().try_for_each(|number| write!(f, ",{number}"))
    }
}

impl FromStr for Dump {
    type Err = BadLine;

    fn from_str(text: &str) -> Result<Dump, BadLine> {
        let mut dump = Dump::default();
        for line in text.lines() {
            let mut fields = line.split(',');
            let word = fields.next();
            let numbers = fields.map(number).collect::<Result<Vec<_>, _>>()?;
            let region = dump.regions.last_mut().ok_or(BadLine);
            match (word, &numbers[..]) {
                (Some("region"), &[start, pages, first]) => {
                    dump.regions.push(Region { start, pages, first, ..Region::default() })
                }
                (Some("pages"), &[_, count, marks, level]) => {
                    let page = Page { marks: marks as u8, level: level as u8 };
                    let managed = &mut region?.managed;
                    managed.resize(managed.len() + count as usize, page);
                }
                (Some("list"), &[level @ 0..=2, zeroed @ 0..=1, ref addresses @ ..]) => {
                    region?.lists[(2 * level + zeroed) as usize] = addresses.to_vec()
                }
                (Some("counters"), counters) => {
                    dump.counters = counters.try_into().map_err(|_| BadLine)?
                }
                (Some("queue"), addresses) => dump.queue = addresses.to_vec(),
                (Some("pass"), &[rounds, freed]) => dump.pass = (rounds, freed),
                _ => return Err(BadLine),
            }
        }
        Ok(dump)
    }
}
