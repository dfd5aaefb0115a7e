//! The exported functions, declared as `crates/store/src/lib.rt` has them, and a
//! safe function for each. A slice is passed as its address and its length in
//! elements. They test all that they are given, read and write nothing outside of
//! the slices, keep no address and end on every input: any call is sound whose
//! slices are.

/// An entry of the boot map. All kinds but 0 are no usable memory.
#[repr(C)]
#[derive(Clone, Copy, Debug, Default, PartialEq, Eq)]
pub struct Entry {
    pub start: u64,
    pub length: u64,
    pub kind: u64,
}

/// The nine counters of the kernel's `MemoryTracker`, in its order. All but
/// `reclaimed`, which counts frames, and `waiting` count pages.
#[repr(C)]
#[derive(Clone, Copy, Debug, Default, PartialEq, Eq)]
pub struct Counters {
    /// Held pages that were granted with [`KERNEL`](crate::FrameAllocFlags::KERNEL).
    pub kernel_used: usize,
    /// Held pages that were granted without it.
    pub page_data: usize,
    /// Pages that nobody holds, those of the tables included.
    pub idle: usize,
    /// Pages of all regions, those of the tables included.
    pub total: usize,
    /// Pages granted since the boot. It wraps.
    pub allocated: usize,
    /// Pages freed since the boot. It wraps.
    pub freed: usize,
    /// Frames that ended passes of reclaim rounds have freed. It wraps.
    pub reclaimed: usize,
    /// Always 0: threads wait in the kernel.
    pub waiting: usize,
    /// Pages lent to the pager. It wraps upwards.
    pub pager_outstanding: usize,
}

/// What a call is lent.
pub struct Lent<'a> {
    pub words: &'a mut [u64],
    pub records: &'a mut [u8],
    pub memory: &'a mut [u8],
    pub queue: &'a mut [u64],
    pub answer: &'a mut [u64],
}

extern "C" {
    fn jilakkor_audit(
        words: *const u64,
        words_len: usize,
        records: *const u8,
        records_len: usize,
        memory_len: usize,
        queue_len: usize,
    ) -> u32;
    fn jilakkor_alloc(
        words: *mut u64,
        words_len: usize,
        records: *mut u8,
        records_len: usize,
        memory: *mut u8,
        memory_len: usize,
        queue: *mut u64,
        queue_len: usize,
        answer: *mut u64,
        answer_len: usize,
        size: u64,
        align: u64,
        flags: u64,
    ) -> u32;
    fn jilakkor_take(
        words: *mut u64,
        words_len: usize,
        records: *mut u8,
        records_len: usize,
        memory: *mut u8,
        memory_len: usize,
        queue: *mut u64,
        queue_len: usize,
        answer: *mut u64,
        answer_len: usize,
        size: u64,
        align: u64,
        flags: u64,
    ) -> u32;
    fn jilakkor_split(
        words: *mut u64,
        words_len: usize,
        records: *mut u8,
        records_len: usize,
        memory: *mut u8,
        memory_len: usize,
        queue: *mut u64,
        queue_len: usize,
        answer: *mut u64,
        answer_len: usize,
        address: u64,
    ) -> u32;
    fn jilakkor_free(
        words: *mut u64,
        words_len: usize,
        records: *mut u8,
        records_len: usize,
        memory: *mut u8,
        memory_len: usize,
        queue: *mut u64,
        queue_len: usize,
        answer: *mut u64,
        answer_len: usize,
        address: u64,
    ) -> u32;
    fn jilakkor_zero(
        words: *mut u64,
        words_len: usize,
        records: *mut u8,
        records_len: usize,
        memory: *mut u8,
        memory_len: usize,
        queue: *mut u64,
        queue_len: usize,
        answer: *mut u64,
        answer_len: usize,
        address: u64,
    ) -> u32;
    fn jilakkor_dirty(
        words: *mut u64,
        words_len: usize,
        records: *mut u8,
        records_len: usize,
        memory: *mut u8,
        memory_len: usize,
        queue: *mut u64,
        queue_len: usize,
        answer: *mut u64,
        answer_len: usize,
        address: u64,
    ) -> u32;
    fn jilakkor_find(
        words: *mut u64,
        words_len: usize,
        records: *mut u8,
        records_len: usize,
        memory: *mut u8,
        memory_len: usize,
        queue: *mut u64,
        queue_len: usize,
        answer: *mut u64,
        answer_len: usize,
        address: u64,
    ) -> u32;
    fn jilakkor_queue(
        words: *mut u64,
        words_len: usize,
        records: *mut u8,
        records_len: usize,
        memory: *mut u8,
        memory_len: usize,
        queue: *mut u64,
        queue_len: usize,
        answer: *mut u64,
        answer_len: usize,
        address: u64,
    ) -> u32;
    fn jilakkor_fill(
        words: *mut u64,
        words_len: usize,
        records: *mut u8,
        records_len: usize,
        memory: *mut u8,
        memory_len: usize,
        queue: *mut u64,
        queue_len: usize,
        answer: *mut u64,
        answer_len: usize,
        address: u64,
        offset: u64,
        len: u64,
        byte: u64,
    ) -> u32;
    fn jilakkor_copy(
        words: *mut u64,
        words_len: usize,
        records: *mut u8,
        records_len: usize,
        memory: *mut u8,
        memory_len: usize,
        queue: *mut u64,
        queue_len: usize,
        answer: *mut u64,
        answer_len: usize,
        target: u64,
        target_offset: u64,
        source: u64,
        source_offset: u64,
        len: u64,
    ) -> u32;
    fn jilakkor_pcopy(
        words: *mut u64,
        words_len: usize,
        records: *mut u8,
        records_len: usize,
        memory: *mut u8,
        memory_len: usize,
        queue: *mut u64,
        queue_len: usize,
        answer: *mut u64,
        answer_len: usize,
        target: u64,
        target_offset: u64,
        source: u64,
        len: u64,
    ) -> u32;
    fn jilakkor_round(
        words: *mut u64,
        words_len: usize,
        records: *mut u8,
        records_len: usize,
        memory: *mut u8,
        memory_len: usize,
        queue: *mut u64,
        queue_len: usize,
        answer: *mut u64,
        answer_len: usize,
    ) -> u32;
    fn jilakkor_lend(
        words: *mut u64,
        words_len: usize,
        records: *mut u8,
        records_len: usize,
        memory: *mut u8,
        memory_len: usize,
        queue: *mut u64,
        queue_len: usize,
        answer: *mut u64,
        answer_len: usize,
        count: u64,
    ) -> u32;
    fn jilakkor_back(
        words: *mut u64,
        words_len: usize,
        records: *mut u8,
        records_len: usize,
        memory: *mut u8,
        memory_len: usize,
        queue: *mut u64,
        queue_len: usize,
        answer: *mut u64,
        answer_len: usize,
        count: u64,
    ) -> u32;
    fn jilakkor_low(
        words: *mut u64,
        words_len: usize,
        records: *mut u8,
        records_len: usize,
        memory: *mut u8,
        memory_len: usize,
        queue: *mut u64,
        queue_len: usize,
        answer: *mut u64,
        answer_len: usize,
    ) -> u32;
    fn jilakkor_write(
        words: *mut u64,
        words_len: usize,
        records: *mut u8,
        records_len: usize,
        memory: *mut u8,
        memory_len: usize,
        queue: *mut u64,
        queue_len: usize,
        answer: *mut u64,
        answer_len: usize,
        address: u64,
        offset: u64,
        bytes: *const u8,
        bytes_len: usize,
    ) -> u32;
    fn jilakkor_read(
        words: *mut u64,
        words_len: usize,
        records: *mut u8,
        records_len: usize,
        memory: *mut u8,
        memory_len: usize,
        queue: *mut u64,
        queue_len: usize,
        answer: *mut u64,
        answer_len: usize,
        address: u64,
        offset: u64,
        len: u64,
    ) -> u32;
    fn jilakkor_stats(
        words: *mut u64,
        words_len: usize,
        records: *mut u8,
        records_len: usize,
        memory: *mut u8,
        memory_len: usize,
        queue: *mut u64,
        queue_len: usize,
        answer: *mut u64,
        answer_len: usize,
        text: *mut u8,
        text_len: usize,
    ) -> u32;
    fn jilakkor_boot(
        map: *const Entry,
        map_len: usize,
        words: *mut u64,
        words_len: usize,
        records: *mut u8,
        records_len: usize,
        memory: *const u8,
        memory_len: usize,
        queue: *const u64,
        queue_len: usize,
        answer: *mut u64,
        answer_len: usize,
    ) -> u32;
    fn jilakkor_call(
        counters: *mut Counters,
        words: *mut u64,
        words_len: usize,
        records: *mut u8,
        records_len: usize,
        memory: *mut u8,
        memory_len: usize,
        queue: *mut u64,
        queue_len: usize,
        answer: *mut u64,
        answer_len: usize,
        op: u64,
        numbers: *const u64,
        numbers_len: usize,
        bytes: *mut u8,
        bytes_len: usize,
    ) -> u32;
}

/// 0 where the state and the loans are whole, else 6.
pub fn audit(words: &[u64], records: &[u8], memory_len: usize, queue_len: usize) -> u32 {
    // Safety: both slices are lent for the call.
    unsafe {
        jilakkor_audit(
            words.as_ptr(),
            words.len(),
            records.as_ptr(),
            records.len(),
            memory_len,
            queue_len,
        )
    }
}

/// Makes a safe function of each exported one that takes all loans: what it takes
/// besides, and what of that is passed on.
macro_rules! calls {
    ($($name:ident($($taken:tt)*) = $exported:ident($($passed:expr),*);)*) => {$(
        pub fn $name(lent: Lent<'_>, $($taken)*) -> u32 {
            let Lent { words, records, memory, queue, answer } = lent;
            // Safety: all slices are lent for the call.
            unsafe {
                $exported(
                    words.as_mut_ptr(),
                    words.len(),
                    records.as_mut_ptr(),
                    records.len(),
                    memory.as_mut_ptr(),
                    memory.len(),
                    queue.as_mut_ptr(),
                    queue.len(),
                    answer.as_mut_ptr(),
                    answer.len(),
                    $($passed),*
                )
            }
        }
    )*};
}

calls! {
    alloc(size: u64, align: u64, flags: u64) = jilakkor_alloc(size, align, flags);
    take(size: u64, align: u64, flags: u64) = jilakkor_take(size, align, flags);
    split(address: u64) = jilakkor_split(address);
    free(address: u64) = jilakkor_free(address);
    zero(address: u64) = jilakkor_zero(address);
    dirty(address: u64) = jilakkor_dirty(address);
    find(address: u64) = jilakkor_find(address);
    queue(address: u64) = jilakkor_queue(address);
    fill(address: u64, offset: u64, len: u64, byte: u64) =
        jilakkor_fill(address, offset, len, byte);
    copy(target: u64, target_offset: u64, source: u64, source_offset: u64, len: u64) =
        jilakkor_copy(target, target_offset, source, source_offset, len);
    pcopy(target: u64, target_offset: u64, source: u64, len: u64) =
        jilakkor_pcopy(target, target_offset, source, len);
    round() = jilakkor_round();
    lend(count: u64) = jilakkor_lend(count);
    back(count: u64) = jilakkor_back(count);
    low() = jilakkor_low();
    write(address: u64, offset: u64, bytes: &[u8]) =
        jilakkor_write(address, offset, bytes.as_ptr(), bytes.len());
    read(address: u64, offset: u64, len: u64) = jilakkor_read(address, offset, len);
    stats(text: &mut [u8]) = jilakkor_stats(text.as_mut_ptr(), text.len());
}

/// The boot reads no word and no byte of what it is lent, and writes neither the
/// memory nor the queue.
pub fn boot(map: &[Entry], lent: Lent<'_>) -> u32 {
    let Lent { words, records, memory, queue, answer } = lent;
    // Safety: all slices are lent for the call.
    unsafe {
        jilakkor_boot(
            map.as_ptr(),
            map.len(),
            words.as_mut_ptr(),
            words.len(),
            records.as_mut_ptr(),
            records.len(),
            memory.as_ptr(),
            memory.len(),
            queue.as_ptr(),
            queue.len(),
            answer.as_mut_ptr(),
            answer.len(),
        )
    }
}

/// The call of a number, on counters of their own, with the bytes to write or room
/// for the statistics.
pub fn call(
    counters: &mut Counters,
    lent: Lent<'_>,
    op: u64,
    numbers: &[u64],
    bytes: &mut [u8],
) -> u32 {
    let Lent { words, records, memory, queue, answer } = lent;
    // Safety: the counters and all slices are lent for the call.
    unsafe {
        jilakkor_call(
            counters,
            words.as_mut_ptr(),
            words.len(),
            records.as_mut_ptr(),
            records.len(),
            memory.as_mut_ptr(),
            memory.len(),
            queue.as_mut_ptr(),
            queue.len(),
            answer.as_mut_ptr(),
            answer.len(),
            op,
            numbers.as_ptr(),
            numbers.len(),
            bytes.as_mut_ptr(),
            bytes.len(),
        )
    }
}
