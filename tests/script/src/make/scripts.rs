//! Whole scripts.

use super::{
    loans,
    maker::Maker,
    maps::{self, Extent},
};
use crate::{
    case::{Case, Contents, Lent, FILLER, PROGRAM},
    model::Program,
    modelled::borrowed,
    random::Random,
};

/// Managed pages that the program's own loans suffice for.
const SAMPLE_PAGES: u64 = 16;

/// Places of the queue on common ground, where there is always room.
const ROOMY: usize = 4096;

/// A script on common ground, of so many calls and a few lines more, and the sorts
/// of its bad lines.
pub fn on_ground(seed: u64, index: u64, calls: u64) -> (Case, Vec<&'static str>) {
    let mut random = Random::of_list(seed, index);
    let extents = [(Extent::Few, 85), (Extent::Large, 11), (Extent::Many, 4)];
    let extent = random.weighted(&extents);
    let map = maps::on_ground(&mut random, extent);
    let mut lent = loans::generous(&mut random, &map, ROOMY);
    lent.contents = Contents::Memory(FILLER);
    written(random, lent, |maker| {
        maker.say_map(&map);
        maker.say("boot");
        if extent == Extent::Many {
            maker.grant_many();
            maker.queue_many(true);
            maker.round_often();
        }
        maker.ground_calls(calls, true);
        if !map_is_empty(maker) {
            maker.say("stats");
        }
    })
}

/// A script on common ground that the program's own loans suffice for.
pub fn sample(seed: u64, index: u64, calls: u64) -> Case {
    let mut random = Random::of_list(seed, index);
    let map = maps::on_ground(&mut random, Extent::Within(SAMPLE_PAGES));
    written(random, PROGRAM, |maker| {
        maker.say_map(&map);
        maker.say("boot");
        maker.ground_calls(calls, false);
        if !map_is_empty(maker) {
            maker.say("stats");
        }
    })
    .0
}

/// A script of any sort with any loans, and the sorts of its bad lines.
pub fn any(seed: u64, index: u64, calls: u64) -> (Case, Vec<&'static str>) {
    let mut random = Random::of_list(seed, index);
    let extents = [(Extent::Few, 88), (Extent::Large, 8), (Extent::Many, 4)];
    let extent = random.weighted(&extents);
    let odd_map = random.percent(40);
    let map = match odd_map {
        true => maps::any(&mut random, extent),
        false => maps::on_ground(&mut random, extent),
    };
    let mut lent = loans::any(&mut random, &map);
    if extent == Extent::Many && random.percent(60) {
        lent.queue = random.within(100..=400) as usize;
    }
    let (mut case, bad) = written(random, lent, |maker| {
        maker.start(&map);
        if extent == Extent::Many {
            maker.grant_many();
            maker.queue_many(false);
            maker.round_often();
        }
        if extent == Extent::Large && maker.random.percent(30) {
            maker.grant_many();
        }
        if maker.program.store().is_none() {
            maker.unbooted_lines();
            return;
        }
        maker.wild_calls(calls);
        if maker.random.percent(70) {
            maker.say("stats");
        }
    });
    case.ended = index % 3 != 0;
    (case, bad)
}

fn map_is_empty(maker: &Maker) -> bool {
    maker.view().is_none_or(|view| view.regions.is_empty())
}

/// The script that `write` says, with the sorts of its bad lines.
fn written(
    random: Random,
    lent: Lent,
    write: impl FnOnce(&mut Maker),
) -> (Case, Vec<&'static str>) {
    let mut case = Case { lines: Vec::new(), ended: true, lent };
    let mut loans = case.loans();
    let mut maker = Maker::new(random, Program::new(borrowed(&mut loans)));
    write(&mut maker);
    let Maker { lines, bad, .. } = maker;
    case.lines = lines;
    (case, bad)
}
