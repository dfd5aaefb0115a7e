//! What a dump shows to whoever makes up the next call: the held frames with
//! their marks, and a few facts of the whole.

use oracle::{Dump, Page, Region};

use crate::map::PAGE;

pub const ADMITTED: u8 = 1;
pub const ALLOCATED: u8 = 2;
pub const ZEROED: u8 = 4;
pub const KERNEL: u8 = 8;

/// Places of counters in a dump.
const KERNEL_USED: usize = 0;
const PAGE_DATA: usize = 1;
const IDLE: usize = 2;
const TOTAL: usize = 3;
const OUTSTANDING: usize = 8;

#[derive(Clone, Copy)]
pub struct Held {
    pub address: u64,
    pub size: u64,
    pub zeroed: bool,
    pub kernel: bool,
    pub queued: bool,
}

impl Held {
    pub fn contains(&self, address: u64) -> bool {
        (self.address..self.address + self.size).contains(&address)
    }
}

pub struct View {
    pub held: Vec<Held>,
    /// Whether a 2 MiB frame is on a list.
    pub medium_listed: bool,
    /// Whether a zeroed frame is on a list, and one of 2 MiB.
    pub zeroed_listed: bool,
    pub zeroed_medium_listed: bool,
    pub total: u64,
    pub outstanding: u64,
}

impl View {
    pub fn of(dump: &Dump) -> View {
        let is_listed = |lists: &[usize]| {
            let on = |region: &Region| lists.iter().any(|list| !region.lists[*list].is_empty());
            dump.regions.iter().any(on)
        };
        let held = frames(dump).filter(|(_, page)| page.marks & ALLOCATED != 0);
        View {
            held: held
                .map(|(address, page)| Held {
                    address,
                    size: size(page),
                    zeroed: page.marks & ZEROED != 0,
                    kernel: page.marks & KERNEL != 0,
                    queued: dump.queue.contains(&address),
                })
                .collect(),
            medium_listed: is_listed(&[2, 3]),
            zeroed_listed: is_listed(&[1, 3, 5]),
            zeroed_medium_listed: is_listed(&[3]),
            total: dump.counters[TOTAL],
            outstanding: dump.counters[OUTSTANDING],
        }
    }
}

/// The frames of all regions, by address.
pub fn frames(dump: &Dump) -> impl Iterator<Item = (u64, Page)> + '_ {
    dump.regions.iter().flat_map(|region| {
        let addresses = (region.first..).step_by(PAGE as usize);
        addresses.zip(region.managed.iter().copied()).filter(|(_, page)| page.marks & ADMITTED != 0)
    })
}

/// Bytes of the frame that starts at a page.
pub fn size(page: Page) -> u64 {
    PAGE << (9 * page.level)
}

/// Whether memory is low, for the statistics; what is compared is the answer of
/// `low`.
pub fn low(dump: &Dump) -> bool {
    let counters = &dump.counters;
    counters[PAGE_DATA] >= counters[IDLE] / 2 || counters[IDLE] < 2 * counters[KERNEL_USED]
}
