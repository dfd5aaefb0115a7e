//! The kernel's reclaim thread as a coroutine. It has a thread of its own, but
//! it and the driver take turns: the driver waits while it runs, and it waits
//! in `schedule()` after each worked round and in the trace that ends a pass.
//! What it traced last tells the driver how far it came.

use std::sync::{Condvar, Mutex};

#[derive(Clone, Copy, PartialEq)]
enum Side {
    Driver,
    Reclaim,
}

/// What the reclaim thread did with its turn.
pub enum Step {
    /// It worked a round; `rounds` came before it, `count` frames were freed in
    /// the pass so far.
    Worked { rounds: u64, count: u64 },
    /// It ended a pass that freed `count` frames.
    Ended { count: u64 },
}

static TURN: Mutex<Side> = Mutex::new(Side::Driver);
static TURNED: Condvar = Condvar::new();
static LAST: Mutex<Option<Step>> = Mutex::new(None);

/// Starts the thread; it does nothing before the first `resume`.
pub fn spawn(start: extern "C" fn()) {
    log::listen(traced);
    std::thread::spawn(move || {
        wait_for(Side::Reclaim);
        start()
    });
}

/// Lets the reclaim thread run until it hands back.
pub fn resume() -> Step {
    pass_to(Side::Reclaim);
    wait_for(Side::Driver);
    LAST.lock().unwrap().take().expect("a trace before each hand-over")
}

/// Called on the reclaim thread: lets the driver run until it resumes.
pub fn hand_back() {
    pass_to(Side::Driver);
    wait_for(Side::Reclaim);
}

/// The two traces of `reclaim_main` differ in `thisround`: only the one of a
/// worked round has it, and `schedule()` follows that one.
fn traced(message: &str) {
    let count = number_after("count=", message);
    if message.contains("thisround=") {
        let rounds = number_after(",rounds=", message);
        *LAST.lock().unwrap() = Some(Step::Worked { rounds, count });
    } else {
        *LAST.lock().unwrap() = Some(Step::Ended { count });
        hand_back();
    }
}

fn number_after(name: &str, message: &str) -> u64 {
    let (_, rest) = message.split_once(name).expect("the trace's wording");
    rest.split(',').next().unwrap().parse().expect("a number")
}

fn pass_to(side: Side) {
    *TURN.lock().unwrap() = side;
    TURNED.notify_all();
}

fn wait_for(side: Side) {
    let turn = TURN.lock().unwrap();
    drop(TURNED.wait_while(turn, |turn| *turn != side).unwrap());
}
