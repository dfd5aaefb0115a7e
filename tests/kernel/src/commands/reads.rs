//! Scripts through the crate, with reads at their ends.

use jilakkor::{Error, PhysAddr};
use script::{
    case::{lent, Case},
    model::{Store, PAGE},
    modelled,
};

use crate::{
    lot::Lot,
    play::{self, Played},
    safe::Safe,
};

/// Plays a script through the crate, and reads frames at its end.
pub fn play(case: &Case) -> Result<Played, String> {
    let played = play::play(case, &mut Safe::default())?;
    if let Some(store) = modelled::store(case).filter(|_| played.booted) {
        read(case, &played, &store)?;
    }
    Ok(played)
}

/// At most so many frames of a region are read.
const MOST: usize = 12;

/// Held frames are a part of the memory, others are refused.
fn read(case: &Case, played: &Played, model: &Store) -> Result<(), String> {
    let mut lot = lot(case, played);
    let memory = lent(&played.outcome.loans.memory);
    let mut store = lot.resume().map_err(|error| error.to_string())?;
    for region in &model.regions {
        for (&address, frame) in region.frames.iter().take(MOST) {
            let size = frame.size() as usize;
            let (offset, length) = (size / 3, size / 2);
            let place = (PAGE * region.page(address)) as usize + offset;
            let expected = match frame.held {
                true => Ok(&memory[place..place + length]),
                false => Err(Error::NotHeld),
            };
            if store.read(PhysAddr::new(address), offset, length) != expected {
                return Err(format!("the frame at {address} is not read as it is"));
            }
        }
    }
    Ok(())
}

/// The loans as a script left them.
fn lot(case: &Case, played: &Played) -> Lot {
    let loans = &played.outcome.loans;
    Lot {
        words: played.words.clone(),
        records: loans.records.clone(),
        memory: loans.memory.clone(),
        queue: loans.queue.clone(),
        answer: play::lot(case).answer,
    }
}
