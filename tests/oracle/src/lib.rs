//! The reference that the frame store is compared with: the kernel's own
//! frame.rs and tracker.rs, compiled from their unmodified text, with stand-ins
//! (`kernel`) for everything they import. A [Run] boots them on a map, does one
//! [Call] after another and shows all their state as a [Dump].
//!
//! A run answers on the common ground of the specification only. It looks
//! before each call whether the call is there; the first that isn't gets
//! [Answer::Off], and from then on the run does nothing more.
//!
//! To build it, `cargo build` in tests/ wants Debian's package
//! librust-intrusive-collections-dev and the kernel's sources, at the path in
//! JILAKKOR_SOURCES or else in ../shared/docs/src beside the repository.

extern crate alloc;

mod answer;
pub mod bare;
mod call;
mod coroutine;
mod dump;
mod ground;
mod kernel;
mod physical;
mod run;
mod script;
mod store;

// The kernel's text names these modules from the root of its crate.
#[cfg(feature = "lock")]
use kernel::interrupt;
use kernel::{arch, condvar, memory, once, processor, spinlock, syscall, thread};

pub use answer::Answer;
pub use call::{number, to_hex, BadLine, Call, Entry};
pub use dump::{Dump, Page, Region};
pub use physical::FILLER;
pub use run::Run;
pub use script::{Script, HEADER};
