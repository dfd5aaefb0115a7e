//! A script under way, with the model that runs it.

use super::view::{Held, View};
use crate::{
    model::{Entry, Program, PAGE},
    random::Random,
};

pub struct Maker<'a> {
    pub random: Random,
    pub program: Program<'a>,
    pub lines: Vec<Vec<u8>>,
    /// What the last line printed.
    pub last: String,
    /// Addresses at which lines wrote, in their order.
    pub written: Vec<u64>,
    /// The sorts of the bad lines so far.
    pub bad: Vec<&'static str>,
}

impl<'a> Maker<'a> {
    pub fn new(random: Random, program: Program<'a>) -> Maker<'a> {
        let (lines, written, bad) = (Vec::new(), Vec::new(), Vec::new());
        Maker { random, program, lines, last: String::new(), written, bad }
    }

    pub fn say(&mut self, line: impl Into<Vec<u8>>) {
        let line = line.into();
        self.last = self.program.line(&line);
        self.lines.push(line);
    }

    /// The entries of a map, a line each.
    pub fn say_map(&mut self, map: &[Entry]) {
        map.iter().for_each(|entry| self.say(region_line(entry)));
    }

    /// The store as it stands, after an accepted boot.
    pub fn view(&self) -> Option<View> {
        Some(View::of(self.program.store()?, self.program.queue()))
    }

    /// The last line's op with the address and bytes of its answer, if it was
    /// accepted.
    pub fn last_accepted(&self) -> Option<(&str, u64, u64)> {
        let fields: Vec<&str> = self.last.trim_end().split(',').collect();
        match fields[..] {
            [op, "0", address, bytes] => Some((op, address.parse().ok()?, bytes.parse().ok()?)),
            _ => None,
        }
    }

    /// One of the held frames that are wanted.
    pub fn one_of(&mut self, view: &View, wanted: impl Fn(&Held) -> bool) -> Option<Held> {
        let frames: Vec<_> = view.held.iter().filter(|frame| wanted(frame)).copied().collect();
        self.random.pick(&frames).copied()
    }

    /// A held frame. Where a large one was split, its pieces are many, and the
    /// others are taken first now and then.
    pub fn held(&mut self, view: &View) -> Option<Held> {
        let last = self.written.last().copied().filter(|_| self.random.percent(40));
        if let Some(frame) = last.and_then(|at| self.one_of(view, |frame| frame.contains(at))) {
            return Some(frame);
        }
        let rare = self.random.percent(40);
        let special = |frame: &Held| rare && (frame.size > PAGE || frame.zeroed);
        self.one_of(view, special).or_else(|| self.one_of(view, |_| true))
    }
}

pub fn region_line(entry: &Entry) -> String {
    format!("region,{},{},{}", entry.start, entry.length, entry.kind)
}
