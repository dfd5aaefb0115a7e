//! The kernel's console: `logln!` gathers its lines until somebody takes them.
//! On common ground only `print_tracker_stats` writes any.

use std::sync::Mutex;

static LINES: Mutex<String> = Mutex::new(String::new());

macro_rules! logln {
    ($($argument:tt)*) => { $crate::kernel::console::add_line(format!($($argument)*)) };
}

/// What a lock says that nobody gives back.
#[cfg(feature = "lock")]
macro_rules! emerglogln {
    ($($argument:tt)*) => { panic!($($argument)*) };
}

pub fn add_line(line: String) {
    *LINES.lock().unwrap() += &(line + "\n");
}

/// The lines since the last call, each ended by a line feed.
pub fn take_lines() -> String {
    std::mem::take(&mut LINES.lock().unwrap())
}
