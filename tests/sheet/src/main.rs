//! Holds the store's audit against an implementation of the torn sheet of its
//! own (sheet.rs), on sound tables of many shapes and on damaged ones. The first
//! difference ends the run, and so does a run that tried too little.

mod damage;
mod links;
mod make;
mod random;
mod rows;
mod sheet;
mod state;
mod store;
mod tables;
mod tally;

use std::process::ExitCode;

use damage::{Damage, Damager};
use random::Random;
use state::{version, Table, MEANT, ROWS, VERSION, WORDS};
use tables::{Extent, Shape};
use tally::Tally;

const USAGE: &str = "usage: sheet [--seed S] [--rounds N] [--kinds]
  --seed S    what the first round's tables are made from (1); each round adds 1
  --rounds N  tables of each shape, but for the largest, of which there is one (8)
  --kinds     print how often each kind of damage tore";

/// The words of a row.
const ROW: usize = 11;

struct Options {
    seed: u64,
    rounds: u64,
    kinds: bool,
}

impl Options {
    /// None where the words can't be read.
    fn read(mut words: impl Iterator<Item = String>) -> Option<Options> {
        let mut options = Options { seed: 1, rounds: 8, kinds: false };
        while let Some(word) = words.next() {
            match word.as_str() {
                "--seed" => options.seed = words.next()?.parse().ok()?,
                "--rounds" => options.rounds = words.next()?.parse().ok()?,
                "--kinds" => options.kinds = true,
                _ => return None,
            }
        }
        Some(options)
    }
}

fn main() -> ExitCode {
    let Some(options) = Options::read(std::env::args().skip(1)) else {
        eprintln!("{USAGE}");
        return ExitCode::from(2);
    };
    let mut tally = Tally::default();
    let failed = run(&options, &mut tally).err().or(tally.want());
    println!("{}", tally.summary());
    if options.kinds {
        print!("{}", tally.kinds());
    }
    match failed {
        Some(failed) => {
            println!("sheet: FAILED: {failed}");
            ExitCode::FAILURE
        }
        None => ExitCode::SUCCESS,
    }
}

fn run(options: &Options, tally: &mut Tally) -> Result<(), String> {
    for round in 0..options.rounds {
        let seed = options.seed.wrapping_add(round);
        let mut random = Random::of(seed);
        for shape in tables::shapes(&mut random) {
            // They take the longest, and come last, so that the others stay as
            // they are without them.
            if shape.extent == Extent::Few && round > 0 {
                continue;
            }
            let told = |what: String| format!("`{}` of seed {seed}: {what}", shape.name);
            try_shape(&shape, &mut random, tally).map_err(told)?;
        }
    }
    Ok(())
}

fn try_shape(shape: &Shape, random: &mut Random, tally: &mut Tally) -> Result<(), String> {
    let table = make::make(shape, random);
    tally.tables += 1;
    let Table { state, records, memory_len, queue_len } = &table;
    if !sheet::whole(state, records, *memory_len, *queue_len) {
        return Err("the table isn't sound before any damage".into());
    }
    compare(&table)?;
    other_words(&table)?;
    let mut failed = None;
    let found = &mut |Damage { kind, words, table }: Damage| {
        if failed.is_none() {
            match compare(&table) {
                Ok(torn_by) => tally.count(kind, torn_by),
                Err(what) => failed = Some(format!("{kind}, {words}: {what}")),
            }
        }
    };
    Damager { shape, table: &table, random, found }.all();
    failed.map_or(Ok(()), Err)
}

/// The sentence that tears the table, where the store says that it's torn or
/// whole as well.
fn compare(table: &Table) -> Result<Option<sheet::Sentence>, String> {
    let Table { state, records, memory_len, queue_len } = table;
    let torn_by = sheet::torn_by(state, records, *memory_len, *queue_len);
    match (torn_by, store::audit(&state.words(), table)) {
        (None, 0) | (Some(_), 6) => Ok(torn_by),
        (None, answer) => Err(format!("whole, and the store answers {answer}")),
        (Some(sentence), answer) => {
            Err(format!("torn by the sentence `{sentence}`, and the store answers {answer}"))
        }
    }
}

/// Too few words are no state, nor are those of another version or with more than
/// eight rows in use; words past the counters are not looked at.
fn other_words(table: &Table) -> Result<(), String> {
    let words = table.state.words();
    for few in [0, 1, 92, 101, WORDS - 1] {
        if store::audit(&words[..few], table) != 6 {
            return Err(format!("{few} words are taken for a state"));
        }
    }
    for other in [0, VERSION - 1, VERSION + 1, (VERSION + 1) | 8 << 32, u64::MAX] {
        let mut words = words;
        words[0] = other;
        if store::audit(&words, table) != 6 {
            return Err(format!("words of the version {other} are taken for a state"));
        }
    }
    let used = table.state.rows.iter().take_while(|row| row.pages != 0).count();
    for (rows, number) in [(used, 0), (ROWS, 0), (ROWS + 1, 6), (u32::MAX as usize, 6)] {
        let mut words = words;
        words[0] = version(rows);
        let answer = store::audit(&words, table);
        if answer != number {
            return Err(format!("with {rows} rows in use the store answers {answer}"));
        }
    }
    // Of the rows that are not in use no word is read.
    let mut words = words;
    words[0] = version(used);
    words[1 + ROW * used..1 + ROW * ROWS].fill(u64::MAX);
    if store::audit(&words, table) != 0 {
        return Err("words of rows that are not in use are read".into());
    }
    if used > 0 {
        words[0] = version(used - 1);
        if store::audit(&words, table) != 6 {
            return Err("a row less is in use, and the counters still hold".into());
        }
    }
    let mut words = table.state.words();
    words[MEANT..].fill(u64::MAX);
    let longer = [&words[..], &[u64::MAX]].concat();
    match store::audit(&longer, table) {
        0 => Ok(()),
        answer => Err(format!("with other words behind the counters the store answers {answer}")),
    }
}
