//! Compares the definitions with the reference. Lists of calls, random and
//! fixed, are run on the reference; for each, a theorem says that the
//! definitions give the same answers and leave the same state, and the proof
//! checker proves it by computation. Where one fails, the list is shortened and
//! printed as a script, and the exit status is 1; 2 means that nothing could be
//! told.

mod antt;
mod fixed;
mod generate;
mod maker;
mod map;
mod options;
mod random;
mod record;
mod report;
mod scratch;
mod shape;
mod short;
mod shrink;
mod statistics;
mod view;

use std::process::ExitCode;

use options::{Options, USAGE};
use record::Recorded;
use report::grouped;
use scratch::Scratch;
use statistics::Statistics;

fn main() -> ExitCode {
    let Some(options) = Options::read(std::env::args().skip(1)) else {
        eprintln!("{USAGE}");
        return ExitCode::from(2);
    };
    match compare(&options) {
        Ok(true) => ExitCode::SUCCESS,
        Ok(false) => ExitCode::FAILURE,
        Err(error) => {
            eprintln!("compare: {error}");
            ExitCode::from(2)
        }
    }
}

/// Whether no list differs.
fn compare(options: &Options) -> Result<bool, String> {
    let scratch =
        Scratch::new(&options.repository, options.jobs).map_err(|error| error.to_string())?;
    let random = random_lists(options);
    let mut statistics = Statistics::default();
    random.iter().for_each(|(_, run)| statistics.add(run));
    println!("{statistics}");

    let lists: Vec<_> = fixed_lists().into_iter().chain(random).collect();
    let calls = lists.iter().map(|(_, run)| run.calls.len() as u64).sum();
    let counts = format!("{} lists, {} calls", grouped(lists.len() as u64), grouped(calls));
    let failing =
        scratch.failing(lists.iter().map(|(name, run)| antt::whole(name, run)).collect())?;
    let failed = |name: &str, difference: bool| {
        failing.iter().any(|it| it.name == name && it.is_difference() == difference)
    };
    let (differing, others): (Vec<_>, Vec<_>) = lists.iter().partition(|it| failed(&it.0, true));
    let untold: Vec<_> = others.into_iter().filter(|it| failed(&it.0, false)).collect();

    // The list that is checked soonest is shortened soonest.
    if let Some((name, run)) = differing.iter().min_by_key(|(_, run)| antt::cost(run)) {
        println!("these lists differ: {}", report::names(&differing));
        println!("{name}, made as short as it goes:");
        let shortest = shrink::shortest(&scratch, run.clone())?;
        print!("{}", report::script(&shortest));
        let parts = scratch.failing(antt::parts("shortest", &shortest))?;
        for part in parts.iter().filter(|it| it.is_difference()) {
            print!("{}", report::difference(part));
        }
        println!("compare: {counts}, {} differ", grouped(differing.len() as u64));
        return Ok(false);
    }
    if !untold.is_empty() {
        return Err(format!("{counts}, too much for the checker in {}", report::names(&untold)));
    }
    println!("compare: {counts}, no difference");
    Ok(true)
}

/// A list with the name of its theorem.
type Named = (String, Recorded);

fn fixed_lists() -> Vec<Named> {
    fixed::lists().into_iter().map(|(name, run)| (format!("fixed-{name}"), run)).collect()
}

fn random_lists(options: &Options) -> Vec<Named> {
    let list = |index| {
        let name = format!("seed-{}-list-{index}", options.seed);
        (name, generate::list(options.seed, index, options.calls))
    };
    (0..options.lists).map(list).collect()
}
