//! The lines of a script around its calls, and how calls of several sorts follow
//! one another.

use super::{
    bad,
    maker::Maker,
    maps::{self, Extent},
};
use crate::model::Entry;

impl Maker<'_> {
    /// Calls on common ground. Odd ones have needless zeros now and then, and bad
    /// lines among them.
    pub fn ground_calls(&mut self, calls: u64, odd: bool) {
        let kind = self.random.weighted(&[(0, 30), (1, 25), (2, 25), (3, 20)]);
        for _ in 0..calls {
            let Some(line) = self.ground_line(kind) else {
                return;
            };
            match odd.then(|| self.random.within(0..=99)) {
                Some(0..=1) => self.bad_line(&line),
                Some(2) => self.late_line(),
                Some(_) => self.say_oddly(line),
                None => self.say(line),
            }
        }
    }

    /// The map and the boot, with bad lines among them; a refused boot is tried
    /// again, often after more regions.
    pub fn start(&mut self, map: &[Entry]) {
        for entry in map {
            self.early_line();
            self.say_map(std::slice::from_ref(entry));
        }
        self.early_line();
        self.say("boot");
        while self.program.store().is_none() && self.random.percent(50) {
            if self.random.percent(70) {
                let more = maps::any(&mut self.random, Extent::Few);
                self.say_map(&more[..more.len().min(2)]);
            }
            self.early_line();
            self.say("boot");
        }
    }

    /// Now and then a line that is bad before a boot.
    fn early_line(&mut self) {
        if self.random.percent(10) {
            let calls = ["low", "stats", "round", "alloc,4096,4096,0", "free,1110016", "lend,1"];
            self.bad.push("a call before boot");
            let call = *self.random.pick(&calls).expect("a call");
            self.say(call);
        }
        if self.random.percent(8) {
            self.bad_line("region,1048576,65536,0");
        }
        if self.random.percent(3) {
            self.bad_line("boot");
        }
    }

    /// A bad line made from a good one.
    fn bad_line(&mut self, good: &str) {
        let (sort, line) = bad::line(&mut self.random, good);
        self.bad.push(sort);
        self.say(line);
    }

    /// A few lines after a refused boot.
    pub fn unbooted_lines(&mut self) {
        for _ in 0..self.random.within(0..=4) {
            self.early_line();
        }
    }

    /// Calls of any sort, and bad lines among them.
    pub fn wild_calls(&mut self, calls: u64) {
        let kind = self.random.weighted(&[(0, 30), (1, 25), (2, 30), (3, 15)]);
        let weights = [(0, 48), (1, 34), (2, 8), (3, 8), (4, 2)];
        for _ in 0..calls {
            let sort = self.random.weighted(&weights);
            let line = match sort {
                1 => self.wild_line(),
                2 => self.pager_line(),
                _ => self.ground_line(kind),
            };
            let Some(line) = line else {
                return;
            };
            match sort {
                3 => self.bad_line(&line),
                4 => self.late_line(),
                _ => self.say_oddly(line),
            }
        }
    }

    /// A line that is bad after an accepted boot.
    fn late_line(&mut self) {
        let (sort, line) = match self.random.percent(50) {
            true => ("a second boot", "boot"),
            false => ("a region after boot", "region,268435456,65536,0"),
        };
        self.bad.push(sort);
        self.say(line);
    }

    /// A good line, now and then with needless zeros, up to 512 bytes in all.
    fn say_oddly(&mut self, line: String) {
        let zeros = line.contains(',').then(|| self.random.within(0..=99));
        let line = match zeros {
            Some(0..=3) => bad::with_zeros(&mut self.random, &line),
            Some(4) => bad::padded(&mut self.random, &line, 512),
            _ => line,
        };
        self.say(line);
    }
}
