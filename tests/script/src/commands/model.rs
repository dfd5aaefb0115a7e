//! The linked run against the model.

use script::{
    case::{Case, Outcome},
    fixed, make, modelled,
    report::{difference, Side},
    shrink::shortest,
    tally::{Tally, ALL},
};

use super::{as_expected, Done, CALLS};
use crate::{linked, options::Options};

const SCRIPTS: u64 = 20_000;

pub fn model(options: &Options) -> Done {
    let fixed = fixed::scripts();
    for script in &fixed {
        let told = |what: String| format!("the fixed script `{}`: {what}", script.name);
        as_expected(&script.case, &script.printed).map_err(told)?;
        against_model(&script.case).map_err(told)?;
    }
    let tally = random_scripts(options)?;
    // Fewer can't have met everything.
    if let Some(want) = tally.want(ALL).filter(|_| tally.scripts >= SCRIPTS) {
        return Err(want);
    }
    let (scripts, lines) = (tally.scripts, tally.lines);
    let counts = format!("{} fixed and {scripts} random scripts, {lines} lines", fixed.len());
    Ok(format!("{}\nscript: {counts}, as the model has them\n", tally.summary()))
}

fn random_scripts(options: &Options) -> Result<Tally, String> {
    let mut tally = Tally::default();
    for number in options.numbers(SCRIPTS) {
        let (case, bad) = make::any(options.seed, number, options.calls.unwrap_or(CALLS));
        let told = |what: String| format!("script {number} of seed {}: {what}", options.seed);
        let outcome = against_model(&case).map_err(told)?;
        tally.count(&case, outcome.printed());
        tally.count_bad(&bad);
    }
    Ok(tally)
}

/// The linked run's outcome, if it is the model's to the byte.
fn against_model(case: &Case) -> Result<Outcome, String> {
    let outcome = linked::run(case);
    if outcome.difference(&modelled::run(case)).is_none() {
        return Ok(outcome);
    }
    let found = |case: &Case| linked::run(case).difference(&modelled::run(case));
    let case = shortest(case, |case| found(case).is_some());
    let what = found(&case).unwrap_or("what can't be seen twice".into());
    let (ours, theirs) = (linked::run(&case), modelled::run(&case));
    let sides = [Side::new("the store", &ours), Side::new("the model", &theirs)];
    Err(difference(&case, &what, sides))
}
