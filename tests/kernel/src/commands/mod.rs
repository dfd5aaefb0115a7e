//! Random scripts, call by call. Each command gives what it says at the end, or why
//! it failed.

#[cfg(feature = "oracle")]
mod oracle;
mod reads;

#[cfg(feature = "oracle")]
pub use oracle::oracle;

use script::{
    case::Case,
    make, modelled,
    report::{difference, Side},
    shrink::shortest,
    tally::{Tally, ALL},
};

use crate::{
    both::Both,
    options::Options,
    play::{play, Played},
};

pub type Done = Result<String, String>;

/// Random scripts by default; fewer can't meet everything.
const MODEL: u64 = 6000;
const BOTH: u64 = 3000;

type Run = fn(&Case) -> Result<Played, String>;

/// Through the crate, against the model.
pub fn model(options: &Options) -> Done {
    let Tally { scripts, lines, .. } = random_scripts(options, MODEL, reads::play)?;
    Ok(format!("{scripts} random scripts, {lines} lines, through the crate as the model has them"))
}

/// Both forms of the counters, and against the model.
pub fn both(options: &Options) -> Done {
    let run: Run = |case| play(case, &mut Both::default());
    let Tally { scripts, lines, .. } = random_scripts(options, BOTH, run)?;
    Ok(format!("{scripts} random scripts, {lines} lines, the same in both forms of the counters"))
}

fn random_scripts(options: &Options, count: u64, run: Run) -> Result<Tally, String> {
    let mut tally = Tally::default();
    for number in options.numbers(count) {
        let (mut case, _) = make::any(options.seed, number, options.calls);
        // There is always room for what is printed here.
        case.lent.spare = case.lent.spare.max(0);
        let told = |what: String| format!("script {number} of seed {}: {what}", options.seed);
        tally.count(&case, against_model(&case, run).map_err(told)?.outcome.printed());
    }
    // But for bad lines, which are not the library's.
    let wanted = &ALL[..ALL.len() - 1];
    match tally.want(wanted).filter(|_| tally.scripts >= count) {
        Some(want) => Err(want),
        None => Ok(tally),
    }
}

/// What was played, if it is as the model has it.
fn against_model(case: &Case, run: Run) -> Result<Played, String> {
    let found = |case: &Case| match run(case) {
        Ok(played) => played.difference(case).map_or(Ok(played), Err),
        Err(fault) => Err(fault),
    };
    if let Ok(played) = found(case) {
        return Ok(played);
    }
    let case = shortest(case, |case| found(case).is_err());
    let what = found(&case).err().unwrap_or("what can't be seen twice".into());
    let model = modelled::run(&case);
    let played = run(&case).map_err(|fault| format!("{case}{fault}"))?;
    let sides = [Side::new("the store", &played.outcome), Side::new("the model", &model)];
    Err(difference(&case, &what, sides))
}
