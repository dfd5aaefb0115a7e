//! The run of the model, with the same loans.

use crate::{
    case::{lent_mut, Case, Loans, Outcome},
    model,
};

pub fn run(case: &Case) -> Outcome {
    let mut loans = case.loans();
    let printed = model::run(&case.script(), borrowed(&mut loans), case.answer());
    let printed = printed.unwrap_or_default();
    lent_mut(&mut loans.answer)[..printed.len()].copy_from_slice(printed.as_bytes());
    Outcome { returned: printed.len(), loans }
}

/// The loans that the model takes.
pub fn borrowed(loans: &mut Loans) -> model::Loans<'_> {
    model::Loans {
        records: lent_mut(&mut loans.records),
        memory: lent_mut(&mut loans.memory),
        queue: lent_mut(&mut loans.queue),
    }
}

/// The store that the model has at the end of a run. None without an accepted boot.
pub fn store(case: &Case) -> Option<model::Store> {
    let mut loans = case.loans();
    let mut program = model::Program::new(borrowed(&mut loans));
    for line in model::split(&case.script()) {
        program.line(line);
    }
    program.into_store()
}
