//! How a time is taken: the sides by turns, so that a slow moment of the machine
//! meets both, and the best of all turns of each.

use std::time::Instant;

/// The best time of each side for one call, in nanoseconds. A turn calls a side
/// `calls` times.
pub fn best<const N: usize>(
    turns: usize,
    calls: usize,
    mut sides: [&mut dyn FnMut(); N],
) -> [f64; N] {
    let mut best = [f64::INFINITY; N];
    for _ in 0..turns {
        for (side, least) in sides.iter_mut().zip(&mut best) {
            let began = Instant::now();
            for _ in 0..calls {
                side();
            }
            let time = began.elapsed().as_nanos() as f64 / calls as f64;
            *least = least.min(time);
        }
    }
    best
}

/// The time that a tenth of the turns stay below. It is for times that are taken
/// from each other: the difference of two bests wavers with the luck of either.
pub fn tenth(mut times: Vec<f64>) -> f64 {
    times.sort_by(f64::total_cmp);
    times[times.len() / 10]
}
