//! Random lists of calls, of four kinds. Each call is made up from the state
//! that the calls before it left in the reference.

use crate::{
    maker::{Maker, Op},
    map,
    random::Random,
    record::{Recorded, Recorder},
    view::View,
};

/// How often each call is made, in lists of four kinds: of everything; until
/// nothing is left to grant; with the queue and rounds; with contents.
const WEIGHTS: [(Op, [u64; 4]); 18] = [
    (Op::Alloc, [20, 45, 28, 12]),
    (Op::Take, [4, 4, 3, 2]),
    (Op::Split, [5, 4, 3, 3]),
    (Op::Free, [12, 14, 5, 6]),
    (Op::Zero, [10, 14, 6, 10]),
    (Op::Dirty, [3, 1, 1, 4]),
    (Op::Find, [5, 2, 2, 2]),
    (Op::Queue, [6, 3, 18, 2]),
    (Op::Fill, [4, 1, 1, 11]),
    (Op::Write, [4, 1, 1, 10]),
    (Op::Read, [4, 2, 2, 12]),
    (Op::Copy, [7, 2, 2, 20]),
    (Op::Pcopy, [5, 1, 2, 10]),
    (Op::Round, [6, 2, 16, 2]),
    (Op::Lend, [2, 1, 3, 1]),
    (Op::Back, [2, 1, 2, 1]),
    (Op::Low, [3, 2, 5, 1]),
    (Op::Stats, [2, 1, 3, 1]),
];

/// The list of this number, of so many calls.
pub fn list(seed: u64, index: u64, calls: usize) -> Recorded {
    let mut random = Random::of_list(seed, index);
    let map = map::random(&mut random);
    let mut recorder = Recorder::start(&map).expect("a map on common ground");
    let kind = random.weighted(&[(0, 30), (1, 25), (2, 25), (3, 20)]);
    let weights = WEIGHTS.map(|(op, weights)| (op, weights[kind]));
    for _ in 0..calls {
        let view = View::of(&recorder.dump);
        let mut maker = Maker { random: &mut random, view: &view, recorder: &recorder };
        let call = maker.follow().unwrap_or_else(|| loop {
            let op = maker.random.weighted(&weights);
            if let Some(call) = maker.make(op) {
                break call;
            }
        });
        // What is made up should be on common ground; if not, the list ends here.
        if let Err(reason) = recorder.call(call) {
            eprintln!("compare: list {index} of seed {seed} ends early, {reason}");
            break;
        }
    }
    recorder.finish()
}

#[cfg(test)]
mod tests {
    use super::list;

    #[test]
    fn lists_stay_on_common_ground() {
        for index in 0..100 {
            assert_eq!(list(7, index, 20).calls.len(), 20, "list {index}");
        }
    }
}
