//! Scripts made up, the implementation of the script program that they are run by
//! (model/), the kernel's Rust by the oracle, and how two runs are compared. What
//! runs the store itself is left to the programs: main.rs here runs whole scripts,
//! and tests/kernel makes their calls one by one.

pub mod case;
pub mod fixed;
#[cfg(feature = "oracle")]
pub mod kernel;
pub mod make;
pub mod model;
pub mod modelled;
#[path = "../../compare/src/random.rs"]
pub mod random;
#[cfg(feature = "oracle")]
mod records;
pub mod report;
#[path = "../../compare/src/shape.rs"]
mod shape;
pub mod shrink;
pub mod tally;
pub mod vectors;
