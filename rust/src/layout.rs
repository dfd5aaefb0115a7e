//! Sizes of what is lent, and the layout of the state's words
//! (`crates/words/specs/Words.antt`).

/// Bytes of a page, the smallest frame.
pub const FRAME_SIZE: usize = 4096;

/// Bytes of a frame at each of the three levels, each also its alignment.
pub const LEVEL_SIZES: [usize; 3] = [FRAME_SIZE, 512 * FRAME_SIZE, 512 * 512 * FRAME_SIZE];

/// Bytes of a managed page's record.
pub const RECORD_BYTES: usize = 16;

/// Entries of the longest boot map.
pub const MAX_REGIONS: usize = 8;

/// Words of the state, the counters included. Those behind the counters, from the
/// word 101 on, have no meaning yet: no call reads or writes them.
pub const WORDS: usize = 512;

/// The number in the low half of the first word: the version of this layout. The
/// high half has the number of regions, at most eight.
pub const VERSION: u64 = 2;

/// Bytes that the statistics need.
pub const STATS_BYTES: usize = 368;

/// A row has its start, its pages, and six lists of three 32-bit numbers.
pub(crate) const ROWS_AT: usize = 1;
pub(crate) const ROW_WORDS: usize = 11;
pub(crate) const QUEUED_AT: usize = 89;
pub(crate) const PASS_AT: usize = 90;
pub(crate) const COUNTERS_AT: usize = 92;
