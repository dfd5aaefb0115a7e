//! What the program does by its first word. Each gives the lines that it says at
//! the end, or why it failed.

mod model;
#[cfg(feature = "oracle")]
mod oracle;
mod replay;

pub use model::model;
#[cfg(feature = "oracle")]
pub use oracle::{oracle, vectors};
pub use replay::{example, replay};

use script::{
    case::{Case, Outcome},
    modelled,
    report::{difference, Side},
};

use crate::linked;

pub type Done = Result<String, String>;

/// Calls of a random script.
const CALLS: u64 = 30;

type Run = fn(&Case) -> Outcome;

/// The two that are tested.
const RUNS: [(&str, Run); 2] = [("the store", linked::run), ("the model", modelled::run)];

/// Whether both print what is expected.
fn as_expected(case: &Case, expected: &[u8]) -> Result<(), String> {
    for (name, run) in RUNS {
        let outcome = run(case);
        if outcome.printed() != expected {
            let theirs = Side { name: "what was expected", printed: expected };
            let sides = [Side::new(name, &outcome), theirs];
            return Err(difference(case, "what is printed", sides));
        }
    }
    Ok(())
}
