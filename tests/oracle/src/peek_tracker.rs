// What follows is not the kernel's: it is appended to the text of tracker.rs to
// read what is private there, and changes nothing.

/// The nine counters, in the order of the struct.
pub fn peek_counters() -> [u64; 9] {
    let tracker = TRACKER.poll().unwrap();
    [
        &tracker.kernel_used,
        &tracker.page_data,
        &tracker.idle,
        &tracker.total,
        &tracker.allocated,
        &tracker.freed,
        &tracker.reclaimed,
        &tracker.waiting,
        &tracker.pager_outstanding,
    ]
    .map(|counter| counter.load(Ordering::SeqCst) as u64)
}

/// The addresses queued for reclaim, oldest first.
pub fn peek_queue() -> Vec<u64> {
    let reclaim = TRACKER.poll().unwrap().reclaim.poll().unwrap();
    reclaim.state.lock().iter().map(|frame| frame.start_address().raw()).collect()
}
