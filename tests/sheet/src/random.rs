//! Random numbers from a seed, the same on every machine: xorshift64*.

pub struct Random(u64);

impl Random {
    pub fn of(seed: u64) -> Random {
        // Seeds that differ little must not start alike, and 0 never moves.
        let mut random = Random(seed.wrapping_add(1).wrapping_mul(0x9e3779b97f4a7c15) | 1);
        (0..8).for_each(|_| _ = random.next());
        random
    }

    pub fn next(&mut self) -> u64 {
        self.0 ^= self.0 >> 12;
        self.0 ^= self.0 << 25;
        self.0 ^= self.0 >> 27;
        self.0.wrapping_mul(0x2545f4914f6cdd1d)
    }

    /// Below `count`; the small bias of the remainder does no harm here.
    pub fn below(&mut self, count: u64) -> u64 {
        self.next() % count
    }

    pub fn within(&mut self, least: u64, most: u64) -> u64 {
        least + self.below(most - least + 1)
    }

    /// True so many times in a hundred.
    pub fn percent(&mut self, share: u64) -> bool {
        self.below(100) < share
    }

    pub fn pick<T: Copy>(&mut self, choices: &[T]) -> T {
        choices[self.below(choices.len() as u64) as usize]
    }

    pub fn shuffle<T>(&mut self, items: &mut [T]) {
        for last in (1..items.len()).rev() {
            items.swap(last, self.below(last as u64 + 1) as usize);
        }
    }
}
