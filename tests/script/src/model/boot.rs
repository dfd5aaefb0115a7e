//! The boot: which entries are kept, and which maps are refused.

use super::{
    line::Entry,
    refusal::{refuse, FAR_ADDRESS, LONG_MAP, OVERLAP, SHORT_LOAN, TOO_MANY_PAGES},
    region::{Region, PAGE},
    store::Store,
};

const USABLE: u64 = 0;
const MOST_ENTRIES: usize = 8;
const MOST_PAGES: u64 = 1_048_576;
const LIMIT: u128 = 1 << 40;
const RECORD: u64 = 16;

/// The store of a map, or the lowest number that refuses it.
pub fn boot(map: &[Entry], records: usize, memory: usize) -> Result<Store, u8> {
    refuse(map.len() > MOST_ENTRIES, LONG_MAP)?;
    refuse(map.iter().any(ends_far), FAR_ADDRESS)?;
    let regions = kept(map);
    refuse(any_two_share_a_byte(&regions), OVERLAP)?;
    let pages: u64 = regions.iter().map(|region| region.pages).sum();
    refuse(pages > MOST_PAGES, TOO_MANY_PAGES)?;
    let managed = managed(&regions);
    let short = (records as u64) < managed * RECORD || (memory as u64) < managed * PAGE;
    refuse(short, SHORT_LOAN)?;
    Ok(Store::new(regions.into_iter().map(Region::laid_out).collect()))
}

/// "a UsableRam entry ends past 2^40", skipped or not.
fn ends_far(entry: &Entry) -> bool {
    entry.kind == USABLE && u128::from(entry.start) + u128::from(entry.length) > LIMIT
}

/// The regions that boot keeps of a map whose usable entries end by 2^40, with no
/// frames in them yet.
pub fn kept(map: &[Entry]) -> Vec<Region> {
    let mut regions = Vec::new();
    for entry in map {
        if let Some((start, pages)) = rounded(entry) {
            let base = managed(&regions);
            regions.push(Region::empty(start, pages, base));
        }
    }
    regions
}

/// "Entries not UsableRam, with 1 page or less, or shorter than the rounding gap,
/// are skipped": start and pages of the others.
fn rounded(entry: &Entry) -> Option<(u64, u64)> {
    if entry.kind != USABLE {
        return None;
    }
    let start = entry.start.next_multiple_of(PAGE);
    let pages = entry.length.checked_sub(start - entry.start)? / PAGE;
    (pages > 1).then_some((start, pages))
}

/// The managed pages of some regions.
pub fn managed(regions: &[Region]) -> u64 {
    regions.iter().map(Region::managed).sum()
}

fn any_two_share_a_byte(regions: &[Region]) -> bool {
    let share = |a: &Region, b: &Region| a.start < b.end() && b.start < a.end();
    regions.iter().enumerate().any(|(k, a)| regions[..k].iter().any(|b| share(a, b)))
}
