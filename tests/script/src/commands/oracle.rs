//! The linked run and the model against the kernel's Rust.

use script::{
    case::Case,
    kernel::{self, Hidden, Seen},
    make, modelled,
    report::{difference, Side},
    shrink::shortest,
    tally::{Tally, ON_GROUND},
    vectors::Vector,
};

use super::{Done, Run, CALLS, RUNS};
use crate::options::Options;

const SCRIPTS: u64 = 2000;

const SAMPLES: u64 = 320;
const SAMPLE_CALLS: u64 = 32;

pub fn oracle(options: &Options) -> Done {
    let mut tally = Tally::default();
    for number in options.numbers(SCRIPTS) {
        let (case, bad) = make::on_ground(options.seed, number, options.calls.unwrap_or(CALLS));
        let told = |what: String| format!("script {number} of seed {}: {what}", options.seed);
        let seen = against_kernel(&case).map_err(told)?;
        tally.count(&case, &seen.printed);
        tally.count_bad(&bad);
    }
    // Fewer can't have met everything.
    if let Some(want) = tally.want(ON_GROUND).filter(|_| tally.scripts >= SCRIPTS) {
        return Err(want);
    }
    let counts = format!("{} scripts, {} lines", tally.scripts, tally.lines);
    Ok(format!("{}\nscript: {counts}, as the Rust has them\n", tally.summary()))
}

/// A sample of the kernel's answers.
pub fn vectors(options: &Options) -> Done {
    let mut text = Vec::new();
    for number in options.numbers(SAMPLES) {
        let case = make::sample(options.seed, number, options.calls.unwrap_or(SAMPLE_CALLS));
        let told = |what: String| format!("script {number} of the sample: {what}");
        let printed = against_kernel(&case).map_err(told)?.printed;
        text.extend(Vector { case, printed }.text());
    }
    String::from_utf8(text).map_err(|error| error.to_string())
}

/// What was seen of the kernel, if both others came to the same.
fn against_kernel(case: &Case) -> Result<Seen, String> {
    let seen = kernel::run(case);
    for (name, run) in RUNS {
        one_against_kernel(case, &seen, name, run)?;
    }
    if let Some(what) = hidden_difference(&seen, case) {
        let is_found = |case: &Case| hidden_difference(&kernel::run(case), case).is_some();
        return Err(format!("{}the model differs in {what}", shortest(case, is_found)));
    }
    match &seen.off {
        Some((line, reason)) => Err(format!("{case}line {line} is off common ground: {reason}")),
        None => Ok(seen),
    }
}

fn hidden_difference(seen: &Seen, case: &Case) -> Option<String> {
    seen.hidden_difference(Hidden::of(&modelled::store(case)?))
}

fn one_against_kernel(case: &Case, seen: &Seen, name: &str, run: Run) -> Result<(), String> {
    if seen.difference(&run(case)).is_none() {
        return Ok(());
    }
    let found = |case: &Case| kernel::run(case).difference(&run(case));
    let case = shortest(case, |case| found(case).is_some());
    let what = found(&case).unwrap_or("what can't be seen twice".into());
    let (outcome, seen) = (run(&case), kernel::run(&case));
    let theirs = Side { name: "the Rust", printed: &seen.printed };
    Err(difference(&case, &what, [Side::new(name, &outcome), theirs]))
}
