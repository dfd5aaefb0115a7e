//! `CondVar`, after condvar.rs. The reclaim thread runs when the driver lets it
//! and not when it is signalled, so waiting ends at once.

pub struct CondVar;

impl CondVar {
    pub const fn new() -> Self {
        Self
    }

    pub fn wait<Guard>(&self, guard: Guard) -> Guard {
        guard
    }

    pub fn signal(&self) {}
}
