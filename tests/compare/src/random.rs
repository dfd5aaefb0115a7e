//! Random numbers from a seed, the same on every machine: SplitMix64, whose
//! state is a counter, so that any number is a good seed.

use std::ops::RangeInclusive;

pub struct Random(u64);

impl Random {
    /// The numbers of one list among those of a seed.
    pub fn of_list(seed: u64, index: u64) -> Random {
        Random(Random(seed).next() ^ Random(!index).next())
    }

    pub fn next(&mut self) -> u64 {
        self.0 = self.0.wrapping_add(0x9e3779b97f4a7c15);
        let mut mixed = self.0;
        mixed = (mixed ^ (mixed >> 30)).wrapping_mul(0xbf58476d1ce4e5b9);
        mixed = (mixed ^ (mixed >> 27)).wrapping_mul(0x94d049bb133111eb);
        mixed ^ (mixed >> 31)
    }

    /// The small bias of the remainder does no harm here.
    pub fn within(&mut self, range: RangeInclusive<u64>) -> u64 {
        match (range.end() - range.start()).checked_add(1) {
            Some(count) => range.start() + self.next() % count,
            None => self.next(),
        }
    }

    /// True so many times in a hundred.
    pub fn percent(&mut self, share: u64) -> bool {
        self.within(0..=99) < share
    }

    pub fn pick<'a, T>(&mut self, choices: &'a [T]) -> Option<&'a T> {
        match choices.len() {
            0 => None,
            count => choices.get(self.within(0..=count as u64 - 1) as usize),
        }
    }

    /// One of the choices, each as often as its weight says.
    pub fn weighted<T: Copy>(&mut self, choices: &[(T, u64)]) -> T {
        let total = choices.iter().map(|(_, weight)| weight).sum::<u64>();
        let mut left = self.within(0..=total - 1);
        for &(choice, weight) in choices {
            if left < weight {
                return choice;
            }
            left -= weight;
        }
        unreachable!("the weights' sum is above the number drawn")
    }

    pub fn shuffle<T>(&mut self, items: &mut [T]) {
        for last in (1..items.len()).rev() {
            items.swap(last, self.within(0..=last as u64) as usize);
        }
    }
}
