//! A script whose calls are made one by one.

use script::{
    case::{lent_mut, Case, Loans, Outcome, MARGIN},
    model::{self, Answer, Call, Entry, Line, BAD, HEADER},
    modelled,
};

use crate::{
    lot::{noise, Lot, ANSWER},
    state,
};

/// Somebody who makes the calls of a script. An error is a fault of the store that
/// no answer shows.
pub trait Caller {
    fn boot(&mut self, map: &[Entry], lot: &mut Lot) -> Result<Answer, String>;
    fn call(&mut self, call: &Call, lot: &mut Lot) -> Result<Answer, String>;
}

/// What a script left: its loans and what it printed, and the words besides.
pub struct Played {
    pub outcome: Outcome,
    pub words: Vec<u64>,
    pub booted: bool,
}

/// Words that are lent beyond those of the state.
const SPARE: usize = 3;

/// The loans of a case, with words and an answer of two numbers.
pub fn lot(case: &Case) -> Lot {
    let Loans { records, memory, queue, .. } = case.loans();
    Lot { words: first_words(), records, memory, queue, answer: noise(5, ANSWER) }
}

/// The words before the boot.
fn first_words() -> Vec<u64> {
    noise(1, jilakkor::WORDS + SPARE)
}

/// What a script left in its loans, and printed.
pub fn played(case: &Case, lot: Lot, printed: &str, booted: bool) -> Played {
    let Lot { words, records, memory, queue, .. } = lot;
    let mut answer = case.loans().answer;
    lent_mut(&mut answer)[..printed.len()].copy_from_slice(printed.as_bytes());
    let loans = Loans { records, memory, queue, answer };
    Played { outcome: Outcome { returned: printed.len(), loans }, words, booted }
}

/// Plays a script. Lines that can't be read are answered here.
pub fn play(case: &Case, caller: &mut impl Caller) -> Result<Played, String> {
    let mut lot = lot(case);
    let mut printed = HEADER.to_string();
    let (mut map, mut booted) = (Vec::new(), false);
    for line in model::split(&case.script()) {
        printed += &match (model::read(line), booted) {
            (Some(Line::Region(entry)), false) => {
                map.push(entry);
                String::new()
            }
            (Some(Line::Boot), false) => {
                let answer = caller.boot(&map, &mut lot)?;
                booted = answer.is_ok();
                model::printed(line, answer)
            }
            (Some(Line::Call(call)), true) => model::printed(line, caller.call(&call, &mut lot)?),
            _ => BAD.into(),
        };
    }
    Ok(played(case, lot, &printed, booted))
}

/// Does something with the loans that is not to change them where it is refused.
/// Large loans are not looked at.
pub fn watched(
    lot: &mut Lot,
    act: impl FnOnce(&mut Lot) -> Result<Answer, String>,
) -> Result<Answer, String> {
    let before = (lot.memory.len() <= 1 << 20).then(|| lot.clone());
    let answer = act(lot)?;
    let changed = before.filter(|_| answer.is_err()).and_then(|before| lot.difference(&before));
    match changed {
        Some(what) => Err(format!("a refused call changed {what}")),
        None => Ok(answer),
    }
}

impl Played {
    /// What differs from the model's run, in words: what is printed, the loans, and
    /// every word of the state, of which those without a meaning are as before the boot.
    pub fn difference(&self, case: &Case) -> Option<String> {
        let store = modelled::store(case);
        if self.booted != store.is_some() {
            return Some("whether the boot was accepted".into());
        }
        let mut words = first_words();
        if let Some(store) = store {
            let state = state::words(&store);
            lent_mut(&mut words)[..state.len()].copy_from_slice(&state);
        }
        let found = self.outcome.difference(&modelled::run(case));
        found.or_else(|| {
            let at = self.words.iter().zip(&words).position(|(a, b)| a != b)?;
            let place = at as isize - MARGIN as isize;
            Some(format!("word {place} of the state: {} and {}", self.words[at], words[at]))
        })
    }

    /// The words of the state.
    #[cfg(feature = "oracle")]
    pub fn state(&self) -> &[u64] {
        script::case::lent(&self.words)
    }
}
