//! What the records of a region show: its pages and, by their links, its lists.

/// A record's four numbers.
#[derive(Clone, Copy)]
pub struct Record {
    pub marks: u32,
    pub level: u32,
    pub earlier: u32,
    pub later: u32,
}

const BYTES: usize = 16;

const ADMITTED: u32 = 1;
const ALLOCATED: u32 = 2;
const ZEROED: u32 = 4;

/// The records of so many pages from a page on.
pub fn read(records: &[u8], base: usize, pages: usize) -> Vec<Record> {
    let bytes = &records[base * BYTES..][..pages * BYTES];
    let number = |bytes: &[u8]| u32::from_le_bytes(bytes.try_into().unwrap());
    let record = |bytes: &[u8]| Record {
        marks: number(&bytes[..4]),
        level: number(&bytes[4..8]),
        earlier: number(&bytes[8..12]),
        later: number(&bytes[12..]),
    };
    bytes.chunks(BYTES).map(record).collect()
}

/// The pages of a list front to back, counted from the region's first. The error
/// says where the links are wrong.
pub fn list(region: &[Record], base: usize, place: usize) -> Result<Vec<usize>, String> {
    let (level, mark) = (place as u32 / 2, ZEROED * (place as u32 % 2));
    let is_on = |record: &Record| {
        let unheld = record.marks & (ADMITTED | ALLOCATED) == ADMITTED;
        unheld && record.level == level && record.marks & ZEROED == mark
    };
    let members = region.iter().filter(|record| is_on(record)).count();
    let front = region.iter().position(|record| is_on(record) && record.earlier == 0);
    let mut pages = Vec::new();
    let mut next = front;
    while let Some(page) = next {
        let record = region[page];
        let before = pages.last().map_or(0, |before| base + before + 1);
        if !is_on(&record) || record.earlier as usize != before || pages.len() == members {
            return Err(format!("list {place} breaks at page {}", base + page));
        }
        pages.push(page);
        next = (record.later as usize).checked_sub(base + 1).filter(|&page| page < region.len());
        if next.is_none() && record.later != 0 {
            return Err(format!("list {place} leaves the region at page {}", base + page));
        }
    }
    if pages.len() != members {
        return Err(format!("list {place} has {} of {members} frames", pages.len()));
    }
    Ok(pages)
}
