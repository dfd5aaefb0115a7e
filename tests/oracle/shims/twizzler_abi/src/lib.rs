//! The two types of `twizzler_abi` that tracker.rs imports. Neither is reached
//! by a call of the oracle: ranges belong to the pager's iterators, and states
//! to threads that wait.

pub mod pager {
    #[derive(Clone, Copy)]
    pub struct PhysRange {
        pub start: u64,
        pub end: u64,
    }

    impl PhysRange {
        pub fn pages(&self) -> impl Iterator<Item = u64> {
            (self.start..self.end).step_by(4096)
        }

        #[allow(clippy::len_without_is_empty)]
        pub fn len(&self) -> usize {
            (self.end - self.start) as usize
        }
    }
}

pub mod thread {
    pub enum ExecutionState {
        Running,
        Sleeping,
    }
}
