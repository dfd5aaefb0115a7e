//! The exported drivers of the crates leaves and drivers, the audit of the crate
//! store, and the script's run of the crate script_c. A slice is passed as its
//! address and its length; they test all that they are given, so any call is sound
//! whose slices are.

extern "C" {
    pub fn leaves_store(records: *mut u8, length: usize, count: usize) -> usize;
    pub fn leaves_load(records: *const u8, length: usize, count: usize) -> u64;
    pub fn leaves_push(records: *mut u8, length: usize, count: usize) -> usize;
    pub fn leaves_push_pop(records: *mut u8, length: usize, count: usize) -> usize;
    fn leaves_fill(memory: *mut u8, length: usize, at: usize, len: usize, times: usize) -> usize;
    fn leaves_copy(
        memory: *mut u8,
        length: usize,
        to: usize,
        from: usize,
        len: usize,
        times: usize,
    ) -> usize;
    fn jilakkor_audit(
        words: *const u64,
        count: usize,
        records: *const u8,
        length: usize,
        memory_len: usize,
        queue_len: usize,
    ) -> u32;
    fn jilakkor_run(
        script: *const u8,
        script_len: usize,
        records: *mut u8,
        records_len: usize,
        memory: *mut u8,
        memory_len: usize,
        queue: *mut u64,
        queue_len: usize,
        answer: *mut u8,
        answer_len: usize,
    ) -> usize;
    fn leaves_new(records: *mut u8, length: usize, start: u64, pages: usize) -> usize;
    fn leaves_grants(
        records: *mut u8,
        length: usize,
        start: u64,
        pages: usize,
        level: usize,
        times: usize,
    ) -> usize;
    fn drivers_grants(
        records: *mut u8,
        records_len: usize,
        memory: *mut u8,
        memory_len: usize,
        queue: *const u64,
        queue_len: usize,
        start: u64,
        length: usize,
        times: usize,
    ) -> usize;
    fn drivers_finds(
        records: *mut u8,
        records_len: usize,
        memory: *mut u8,
        memory_len: usize,
        queue: *const u64,
        queue_len: usize,
        start: u64,
        length: usize,
        address: u64,
        times: usize,
    ) -> usize;
    fn drivers_zero(
        records: *mut u8,
        records_len: usize,
        memory: *mut u8,
        memory_len: usize,
        queue: *const u64,
        queue_len: usize,
        start: u64,
        length: usize,
        size: u64,
        times: usize,
    ) -> usize;
    fn drivers_fill(
        records: *mut u8,
        records_len: usize,
        memory: *mut u8,
        memory_len: usize,
        queue: *const u64,
        queue_len: usize,
        start: u64,
        length: usize,
        size: u64,
        times: usize,
    ) -> usize;
    fn drivers_copy(
        records: *mut u8,
        records_len: usize,
        memory: *mut u8,
        memory_len: usize,
        queue: *const u64,
        queue_len: usize,
        start: u64,
        length: usize,
        size: u64,
        times: usize,
    ) -> usize;
}

pub type New = fn(&mut [u8], u64, usize) -> usize;
pub type Grants = fn(&mut [u8], u64, usize, usize, usize) -> usize;

/// Lays a region out; the number of its small frames.
pub fn new(records: &mut [u8], start: u64, pages: usize) -> usize {
    unsafe { leaves_new(records.as_mut_ptr(), records.len(), start, pages) }
}

/// Lays a region out and makes grants of a level; how many there were.
pub fn grants(records: &mut [u8], start: u64, pages: usize, level: usize, times: usize) -> usize {
    unsafe { leaves_grants(records.as_mut_ptr(), records.len(), start, pages, level, times) }
}

/// Fills the first bytes of a memory, so many times, each time with the next byte.
pub fn fill_range(memory: &mut [u8], len: usize, times: usize) -> usize {
    unsafe { leaves_fill(memory.as_mut_ptr(), memory.len(), 0, len, times) }
}

/// Copies as many bytes behind the first ones over those, so many times.
pub fn copy_range(memory: &mut [u8], len: usize, times: usize) -> usize {
    unsafe { leaves_copy(memory.as_mut_ptr(), memory.len(), 0, len, len, times) }
}

/// 0 where all is whole, and 6 where it is torn or the words are no state.
pub fn audit(words: &[u64], records: &[u8], memory_len: usize, queue_len: usize) -> u32 {
    let (count, length) = (words.len(), records.len());
    unsafe {
        jilakkor_audit(words.as_ptr(), count, records.as_ptr(), length, memory_len, queue_len)
    }
}

/// What a store lies in, and the only entry of its map.
pub struct Loans {
    pub records: Vec<u8>,
    pub memory: Vec<u8>,
    pub queue: Vec<u64>,
    pub start: u64,
    pub length: usize,
}

/// A driver that boots a store: the number that some take beside the loans (an
/// address or a size), and how often; how many times it was accepted.
pub type Calls = fn(&mut Loans, u64, usize) -> usize;

macro_rules! calls {
    ($($(#[$said:meta])* $name:ident: $driver:ident($($number:ident)?);)*) => {$(
        $(#[$said])*
        pub fn $name(loans: &mut Loans, _number: u64, times: usize) -> usize {
            let Loans { records, memory, queue, start, length } = loans;
            $(let $number = _number;)?
            unsafe {
                $driver(
                    records.as_mut_ptr(),
                    records.len(),
                    memory.as_mut_ptr(),
                    memory.len(),
                    queue.as_ptr(),
                    queue.len(),
                    *start,
                    *length,
                    $($number,)?
                    times,
                )
            }
        }
    )*};
}

calls! {
    /// Grants a frame of 4 KiB and frees it.
    grants_and_frees: drivers_grants();
    /// Finds the page of an address.
    finds: drivers_finds(address);
    /// Zeroes a held frame of a size.
    zero: drivers_zero(size);
    /// Fills it with 85.
    fill: drivers_fill(size);
    /// Copies one to another.
    copy: drivers_copy(size);
}

/// The loans of the script program, and room for the answers to so many lines.
pub struct Script {
    records: [u8; 256],
    memory: Vec<u8>,
    queue: [u64; 64],
    answer: Vec<u8>,
}

impl Script {
    pub fn new(lines: usize) -> Script {
        let (memory, answer) = (vec![0; 65536], vec![0; 512 * lines + 512]);
        Script { records: [0; 256], memory, queue: [0; 64], answer }
    }

    /// Runs a script; the bytes of its answers.
    pub fn run(&mut self, script: &[u8]) -> usize {
        let Script { records, memory, queue, answer } = self;
        unsafe {
            jilakkor_run(
                script.as_ptr(),
                script.len(),
                records.as_mut_ptr(),
                records.len(),
                memory.as_mut_ptr(),
                memory.len(),
                queue.as_mut_ptr(),
                queue.len(),
                answer.as_mut_ptr(),
                answer.len(),
            )
        }
    }
}
