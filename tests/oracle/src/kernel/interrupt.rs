//! Interrupts, of which a process has none: nothing is switched off or on, and no
//! time passes with it.

pub fn disable() -> bool {
    false
}

pub fn set(_state: bool) {}
