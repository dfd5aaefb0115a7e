//! The run of the store's own script program, exported by the crate script_c. Safe
//! for any arguments: it reads and writes nothing outside the slices.

use script::case::{lent_mut, Case, Outcome};

#[link(name = "script", kind = "static")]
extern "C" {
    /// A slice is passed as its address and its length.
    fn jilakkor_run(
        script: *const u8,
        script_len: usize,
        records: *mut u8,
        records_len: usize,
        memory: *mut u8,
        memory_len: usize,
        queue: *mut u64,
        queue_len: usize,
        answer: *mut u8,
        answer_len: usize,
    ) -> usize;
}

pub fn run(case: &Case) -> Outcome {
    let script = case.script();
    let mut loans = case.loans();
    let (records, memory) = (lent_mut(&mut loans.records), lent_mut(&mut loans.memory));
    let (queue, answer) = (lent_mut(&mut loans.queue), lent_mut(&mut loans.answer));
    // Safety: all slices are lent for the call.
    let returned = unsafe {
        jilakkor_run(
            script.as_ptr(),
            script.len(),
            records.as_mut_ptr(),
            records.len(),
            memory.as_mut_ptr(),
            memory.len(),
            queue.as_mut_ptr(),
            queue.len(),
            answer.as_mut_ptr(),
            answer.len(),
        )
    };
    Outcome { returned, loans }
}
