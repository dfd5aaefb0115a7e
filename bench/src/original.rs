//! The kernel's own allocator, where its sources were at hand for the build, with
//! its atomic marks and its tests as they stand: that of one region, whose calls
//! are timed one by one, the best of all turns counting, and whole calls. Those are
//! there twice, with a stand-in that locks nothing and with the kernel's own lock.

use crate::regions::{Region, Times};

/// Each makes a call so many times.
pub struct Calls {
    /// Grants a frame of 4 KiB and frees it.
    pub grants_and_frees: fn(usize),
    /// Finds the page of an address.
    pub finds: fn(u64, usize),
}

#[cfg(feature = "original")]
mod built {
    use std::{hint::black_box, time::Instant};

    use oracle::bare::BareRegion;

    use super::{Calls, Region, Times};
    use crate::clock::best;

    pub fn set_up() {
        oracle::bare::set_up(0..1 << 32);
        locked::bare::set_up(0..1 << 32);
    }

    pub fn grants(region: &Region, turns: usize) -> Option<Times> {
        let &Region { start, pages, level } = region;
        let mut least = [f64::INFINITY; 3];
        let mut take = |which: usize, time: f64| least[which] = least[which].min(time);
        for _ in 0..turns {
            let began = Instant::now();
            let mut region = black_box(BareRegion::new(black_box(start), pages)).unwrap();
            take(0, since(began));
            let mut grant = || assert!(black_box(region.allocate(black_box(level))).is_some());
            let began = Instant::now();
            grant();
            take(1, since(began));
            let began = Instant::now();
            (0..511).for_each(|_| grant());
            take(2, since(began) / 511.0);
            assert_eq!(region.free(level), 0, "pieces that were not granted");
        }
        let [layout, split, listed] = least;
        Some(Times { layout, split, listed })
    }

    fn since(began: Instant) -> f64 {
        began.elapsed().as_nanos() as f64
    }

    pub fn layout(start: u64, pages: usize) -> Option<f64> {
        let mut new = || assert!(black_box(BareRegion::new(black_box(start), pages)).is_some());
        let [time] = best(10, 1, [&mut new]);
        Some(time)
    }

    /// The kernel's calls after its only boot, of an oracle of either kind.
    macro_rules! calls {
        ($oracle:ident) => {{
            use $oracle::bare::{alloc, find, free};
            fn grants_and_frees(times: usize) {
                for _ in 0..times {
                    let address = alloc(black_box(4096)).unwrap();
                    free(black_box(address)).unwrap();
                }
            }
            fn finds(address: u64, times: usize) {
                for _ in 0..times {
                    black_box(find(black_box(address)).unwrap());
                }
            }
            Calls { grants_and_frees, finds }
        }};
    }

    pub fn boot(start: u64, length: usize) -> Option<[Calls; 2]> {
        oracle::bare::boot(start, length);
        locked::bare::boot(start, length);
        Some([calls!(oracle), calls!(locked)])
    }

    /// Lines of a script after its boot.
    pub struct Lines(oracle::Script);

    impl Lines {
        pub fn boot(map: &str) -> Option<Lines> {
            let mut lines = Lines(oracle::Script::default());
            lines.answer(map);
            Some(lines)
        }

        pub fn answer(&mut self, lines: &str) {
            for line in lines.lines() {
                black_box(self.0.answer(black_box(line.as_bytes())));
            }
        }
    }
}

#[cfg(feature = "original")]
pub use built::*;

#[cfg(not(feature = "original"))]
pub fn set_up() {}

#[cfg(not(feature = "original"))]
pub fn grants(_: &Region, _: usize) -> Option<Times> {
    None
}

#[cfg(not(feature = "original"))]
pub fn layout(_: u64, _: usize) -> Option<f64> {
    None
}

#[cfg(not(feature = "original"))]
pub fn boot(_: u64, _: usize) -> Option<[Calls; 2]> {
    None
}

#[cfg(not(feature = "original"))]
pub struct Lines;

#[cfg(not(feature = "original"))]
impl Lines {
    pub fn boot(_: &str) -> Option<Lines> {
        None
    }

    pub fn answer(&mut self, _: &str) {}
}
