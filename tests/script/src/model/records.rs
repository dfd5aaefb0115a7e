//! The records, "one 16-byte record for each managed page", written from the
//! frames and lists.

use super::region::{Region, PAGE};

const ADMITTED: u32 = 1;
const ALLOCATED: u32 = 2;
const ZEROED: u32 = 4;
const KERNEL: u32 = 8;

const BYTES: usize = 16;

/// Writes the records of all managed pages, and none behind them.
pub fn write(regions: &[Region], records: &mut [u8]) {
    for region in regions {
        write_heads(region, records);
        for list in &region.lists {
            write_links(region, list, records);
        }
    }
}

/// "A page inside a larger frame has four zeros."
fn write_heads(region: &Region, records: &mut [u8]) {
    for page in 0..region.managed() {
        let numbers = match region.frames.get(&(region.first() + page * PAGE)) {
            Some(frame) => {
                let bit = |set: bool, mark: u32| if set { mark } else { 0 };
                let marks = ADMITTED
                    + bit(frame.held, ALLOCATED)
                    + bit(frame.zeroed, ZEROED)
                    + bit(frame.kernel, KERNEL);
                [marks, frame.level as u32, 0, 0]
            }
            None => [0; 4],
        };
        for (place, number) in numbers.into_iter().enumerate() {
            put(records, region.base + page, place, number);
        }
    }
}

/// "A neighbour is 0 for none, else its page number plus 1".
fn write_links(region: &Region, list: &[u64], records: &mut [u8]) {
    for pair in list.windows(2) {
        let (earlier, later) = (region.page(pair[0]), region.page(pair[1]));
        put(records, earlier, 3, later as u32 + 1);
        put(records, later, 2, earlier as u32 + 1);
    }
}

/// Writes one of a record's four "32-bit little-endian numbers: marks, level,
/// earlier, later".
fn put(records: &mut [u8], page: u64, place: usize, number: u32) {
    let at = page as usize * BYTES + 4 * place;
    records[at..at + 4].copy_from_slice(&number.to_le_bytes());
}
