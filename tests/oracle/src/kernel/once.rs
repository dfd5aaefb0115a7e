//! `Once`, after once.rs. Its values are set at boot, before anybody waits.

use std::sync::OnceLock;

pub struct Once<T>(OnceLock<T>);

impl<T> Once<T> {
    pub const fn new() -> Self {
        Self(OnceLock::new())
    }

    pub fn call_once<F: FnOnce() -> T>(&self, f: F) -> &T {
        self.0.get_or_init(f)
    }

    pub fn poll(&self) -> Option<&T> {
        self.0.get()
    }

    pub fn wait(&self) -> &T {
        self.0.get().expect("set at boot")
    }
}
