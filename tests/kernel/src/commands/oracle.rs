//! Scripts on common ground against the kernel's Rust.

use script::{
    case::Case,
    kernel::{self, Hidden},
    make,
    tally::{Tally, ON_GROUND},
};

use super::{against_model, reads, Done, Run};
use crate::{kept, options::Options, play::Played};

const SCRIPTS: u64 = 1000;

pub fn oracle(options: &Options) -> Done {
    let mut tally = Tally::default();
    for number in options.numbers(SCRIPTS) {
        let (case, _) = make::on_ground(options.seed, number, options.calls);
        let told = |what: String| format!("script {number} of seed {}: {what}", options.seed);
        // A store that is kept and one that is resumed for each call, by turns.
        let run: Run = if number % 2 == 0 { |case| Ok(kept::play(case)) } else { reads::play };
        tally.count(&case, against_kernel(&case, run).map_err(told)?.outcome.printed());
    }
    if let Some(want) = tally.want(ON_GROUND).filter(|_| tally.scripts >= SCRIPTS) {
        return Err(want);
    }
    let (scripts, lines) = (tally.scripts, tally.lines);
    Ok(format!("{scripts} scripts, {lines} lines, through the crate as the Rust has them"))
}

/// What was played, if it is as the kernel and the model have it.
fn against_kernel(case: &Case, run: Run) -> Result<Played, String> {
    let played = against_model(case, run)?;
    let seen = kernel::run(case);
    if let Some((line, reason)) = &seen.off {
        return Err(format!("{case}line {line} is off common ground: {reason}"));
    }
    let found = seen.difference(&played.outcome);
    match found.or_else(|| seen.hidden_difference(hidden(played.state()))) {
        Some(what) => Err(format!("{case}the Rust differs in {what}")),
        None => Ok(played),
    }
}

/// What stands in the words alone.
fn hidden(words: &[u64]) -> Hidden {
    let mut counters = [0; 9];
    counters.copy_from_slice(&words[92..101]);
    Hidden { counters, queued: words[89], pass: (words[90], words[91]) }
}
