//! Sizes, alignments and options of grants.

use super::view::View;
use crate::{model::SIZES, random::Random};

const ZEROED: u64 = 1;
const KERNEL: u64 = 2;

const SMALL: u64 = SIZES[0];
const MEDIUM: u64 = SIZES[1];
const LARGE: u64 = SIZES[2];

/// A grant on common ground.
pub fn alloc(random: &mut Random, view: &View) -> String {
    let share = if view.medium_listed { 20 } else { 3 };
    // A small grant then splits the large frame.
    let split = view.zeroed_medium_listed && random.percent(40);
    let size = if split { SMALL } else { size(random, share) };
    let options = if split { ZEROED } else { options(random, view) };
    format!("alloc,{size},{},{options}", align(random, size))
}

/// A grant of pieces on common ground.
pub fn take(random: &mut Random, view: &View) -> String {
    let share = if view.medium_listed { 70 } else { 10 };
    let size = size(random, share);
    let options = options(random, view) & !KERNEL;
    format!("take,{size},{},{options}", align(random, size))
}

fn size(random: &mut Random, medium_share: u64) -> u64 {
    if random.percent(medium_share) {
        MEDIUM
    } else if random.percent(2) {
        LARGE
    } else {
        SMALL
    }
}

/// Any power of two up to the size.
fn align(random: &mut Random, size: u64) -> u64 {
    if random.percent(80) {
        size
    } else {
        size >> random.within(0..=size.trailing_zeros().into())
    }
}

fn options(random: &mut Random, view: &View) -> u64 {
    let share = if view.zeroed_listed { 50 } else { 30 };
    let zeroed = if random.percent(share) { ZEROED } else { 0 };
    let kernel = if random.percent(25) { KERNEL } else { 0 };
    zeroed | kernel
}

/// A grant of any layout and options, many at the edges of the refusals.
pub fn any(random: &mut Random) -> String {
    let op = random.weighted(&[("alloc", 70), ("take", 30)]);
    let options = random.within(0..=7);
    if random.percent(40) {
        let size = *random.pick(&SIZES[..2]).expect("a level");
        return format!("{op},{size},{},{options}", align(random, size));
    }
    format!("{op},{},{},{options}", any_size(random), any_align(random))
}

fn any_size(random: &mut Random) -> u64 {
    let edges = [0, SMALL, 5000, MEDIUM, LARGE, 1 << 62, 1 << 63, u64::MAX];
    let edge = *random.pick(&edges).expect("an edge");
    match random.within(0..=5) {
        0 => edge.saturating_sub(1),
        1 => edge.saturating_add(1),
        2 => random.next() >> random.within(0..=63),
        _ => edge,
    }
}

fn any_align(random: &mut Random) -> u64 {
    match random.within(0..=9) {
        0..=4 => 1 << random.within(0..=12),
        5..=6 => 1 << random.within(0..=63),
        7 => 0,
        8 => (1u64 << random.within(0..=63)) ^ (1 << random.within(0..=63)),
        _ => random.next() >> random.within(0..=63),
    }
}
