//! A script on one store that is kept from its boot on, as a kernel keeps it.

use jilakkor::FrameStore;
use script::{
    case::Case,
    model::{self, Line, BAD, HEADER},
};

use crate::{
    play::{lot, played, Played},
    safe::{booted, number, perform, region},
};

/// Plays a script whose boot is accepted at once and whose layouts are good ones,
/// as on common ground.
pub fn play(case: &Case) -> Played {
    let mut lot = lot(case);
    let script = case.script();
    let mut lines = model::split(&script).into_iter();
    let (mut printed, mut map) = (HEADER.to_string(), Vec::new());
    for line in lines.by_ref() {
        match model::read(line) {
            Some(Line::Region(entry)) => map.push(region(&entry)),
            Some(Line::Boot) => break,
            _ => printed += BAD,
        }
    }
    let accepted = match lot.boot(&map) {
        Ok(mut store) => {
            printed += &model::printed(b"boot", Ok(booted(&store)));
            lines.for_each(|line| printed += &answer(&mut store, line));
            true
        }
        Err(error) => {
            printed += &model::printed(b"boot", Err(error.number() as u8));
            false
        }
    };
    played(case, lot, &printed, accepted)
}

fn answer(store: &mut FrameStore, line: &[u8]) -> String {
    match model::read(line) {
        Some(Line::Call(call)) => model::printed(line, number(perform(store, &call, true))),
        _ => BAD.into(),
    }
}
