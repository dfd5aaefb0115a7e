//! `Spinlock`, after spinlock.rs, without the lock. One thread runs at a time,
//! and the reclaim thread is paused between passes with the queue's guard in
//! hand, so a real lock would keep the driver from queueing.

use core::{
    cell::UnsafeCell,
    ops::{Deref, DerefMut},
};

pub struct Spinlock<T>(UnsafeCell<T>);

// Safety: one thread runs at a time, and a hand-over orders their accesses.
unsafe impl<T: Send> Sync for Spinlock<T> {}

pub struct LockGuard<'a, T>(&'a Spinlock<T>);

impl<T> Spinlock<T> {
    pub const fn new(data: T) -> Self {
        Self(UnsafeCell::new(data))
    }

    pub fn lock(&self) -> LockGuard<'_, T> {
        LockGuard(self)
    }
}

impl<T> Deref for LockGuard<'_, T> {
    type Target = T;

    fn deref(&self) -> &T {
        // Safety: see above; no reference outlives the expression it is used in.
        unsafe { &*self.0 .0.get() }
    }
}

impl<T> DerefMut for LockGuard<'_, T> {
    fn deref_mut(&mut self) -> &mut T {
        // Safety: as in `deref`.
        unsafe { &mut *self.0 .0.get() }
    }
}
