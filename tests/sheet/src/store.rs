//! The store's own audit, exported by the crate store. Safe for any arguments:
//! it reads nothing outside the slices.

use crate::state::Table;

extern "C" {
    /// A slice is passed as its address and its length.
    fn jilakkor_audit(
        words: *const u64,
        count: usize,
        records: *const u8,
        length: usize,
        memory_len: usize,
        queue_len: usize,
    ) -> u32;
}

/// 0 where the table is whole, and 6 where it's torn or the words are none of a
/// state.
pub fn audit(words: &[u64], table: &Table) -> u32 {
    let records = &table.records;
    let (memory, queue) = (table.memory_len, table.queue_len);
    // Safety: both slices are lent for the call.
    unsafe {
        jilakkor_audit(words.as_ptr(), words.len(), records.as_ptr(), records.len(), memory, queue)
    }
}
