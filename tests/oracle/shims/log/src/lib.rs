//! The two macros of the `log` crate that the kernel's text uses. A trace goes
//! to one listener, which learns from it how far a reclaim pass has come. The
//! only warning tells of a call that the oracle should not have let through.

use std::sync::OnceLock;

static LISTENER: OnceLock<fn(&str)> = OnceLock::new();

/// Names the function that gets every traced message.
pub fn listen(listener: fn(&str)) {
    LISTENER.set(listener).expect("one listener");
}

#[doc(hidden)]
pub fn traced(message: std::fmt::Arguments) {
    LISTENER.get().expect("a listener")(&message.to_string());
}

#[macro_export]
macro_rules! trace {
    ($($argument:tt)*) => { $crate::traced(format_args!($($argument)*)) };
}

#[macro_export]
macro_rules! warn {
    ($($argument:tt)*) => { panic!($($argument)*) };
}
