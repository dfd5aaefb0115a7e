//! Makes scripts up. Each line is made from the state that the lines before it
//! left in the model, so that it meets frames that are held, queued or marked.

mod bad;
mod bursts;
mod calls;
mod layouts;
mod lines;
mod loans;
mod maker;
mod maps;
mod ranges;
mod scripts;
mod view;
mod wild;

pub use bad::SORTS as BAD_SORTS;
pub use scripts::{any, on_ground, sample};
