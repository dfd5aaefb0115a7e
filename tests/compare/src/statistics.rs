//! What the runs of a sample did, so that one sees that it is not idle: calls of
//! each kind, and how often the rarer paths were taken.

use std::{collections::BTreeMap, fmt};

use oracle::{Answer, Call, Dump, Page};

use crate::{
    map::PAGE,
    record::Recorded,
    view::{self, ALLOCATED, ZEROED},
};

#[derive(Clone, Default)]
pub struct Statistics {
    /// Calls made and calls refused, by their names.
    calls: BTreeMap<&'static str, (u64, u64)>,
    /// How often each thing happened that has a name below.
    events: BTreeMap<&'static str, u64>,
    low: bool,
    not_low: bool,
}

impl Statistics {
    /// Counts a call, with the states before and after it.
    pub fn count(&mut self, before: &Dump, call: &Call, answer: &Answer, after: &Dump) {
        let (made, refused) = self.calls.entry(call.op()).or_default();
        *made += 1;
        *refused += u64::from(matches!(answer, Answer::Refused(_)));
        self.low |= view::low(after);
        self.not_low |= !view::low(after);
        match (call, answer) {
            (Call::Alloc { options, .. }, &Answer::Done { address, bytes }) => {
                self.count_grant(before, *options, address, bytes)
            }
            (Call::Take { options, .. }, &Answer::Done { address, bytes }) => {
                self.count_grant(before, *options, address, bytes);
                self.happened("held frames split", bytes > PAGE);
            }
            (Call::Split(_), &Answer::Done { bytes, .. }) => {
                self.happened("held frames split", bytes > PAGE)
            }
            (Call::Free(address), _) => {
                self.happened("frees to a zeroed list", is_zeroed(before, *address))
            }
            (&Call::Copy { target, source, .. }, _) => {
                let marks = (is_zeroed(before, target), is_zeroed(before, source));
                self.happened("copies within a frame", target == source);
                self.happened("copies of zeros", marks == (false, true));
                self.happened("copies between zeroed", marks == (true, true));
            }
            (Call::Find(_), &Answer::Done { bytes, .. }) => {
                self.happened("finds inside a frame", bytes == 0)
            }
            (Call::Round, _) => {
                let low = view::low(before);
                self.happened("rounds worked", low);
                self.happened("rounds that freed", before.queue.len() > after.queue.len());
                self.happened("passes ended", before.pass.0 > 0 && after.pass.0 == 0);
            }
            _ => {}
        }
    }

    /// Adds the counts of one list.
    pub fn add(&mut self, run: &Recorded) {
        let list = &run.statistics;
        for (name, (made, refused)) in &list.calls {
            let sum = self.calls.entry(name).or_default();
            *sum = (sum.0 + made, sum.1 + refused);
        }
        for (name, count) in &list.events {
            *self.events.entry(name).or_default() += count;
        }
        self.happened("lists that were low", list.low);
        self.happened("lists that were not low", list.not_low);
        self.happened("lists that were both", list.low && list.not_low);
        self.happened("lists with several regions", run.dump.regions.len() > 1);
        let large = run.dump.regions.iter().any(|region| region.pages > 512);
        self.happened("lists with 2 MiB frames", large);
    }

    fn count_grant(&mut self, before: &Dump, options: u8, address: u64, bytes: u64) {
        let frames = view::frames(before).filter(|(_, page)| page.marks & ALLOCATED == 0);
        let (_, page) = frames
            .filter(|&(start, page)| (start..start + view::size(page)).contains(&address))
            .last()
            .expect("a granted frame was listed, or part of one that was");
        let asked = options & 1 != 0;
        let zeroed = page.marks & ZEROED != 0;
        let split = view::size(page) > bytes;
        let regions = &before.regions;
        let first = regions
            .first()
            .is_some_and(|it| (it.start..it.start + it.pages * PAGE).contains(&address));
        self.happened("grants from later regions", !first);
        self.happened("grants of 2 MiB", bytes > PAGE);
        self.happened("grants that split a dirty frame", split && !zeroed);
        self.happened("grants that split a zeroed frame", split && zeroed);
        self.happened("ZEROED grants from zeroed lists", asked && zeroed);
        self.happened("ZEROED grants from dirty lists", asked && !zeroed);
        self.happened("plain grants from zeroed lists", !asked && zeroed);
    }

    fn happened(&mut self, name: &'static str, did: bool) {
        *self.events.entry(name).or_default() += u64::from(did);
    }
}

impl fmt::Display for Statistics {
    fn fmt(&self, f: &mut fmt::Formatter) -> fmt::Result {
        let calls = self.calls.iter().map(|(name, &(made, refused))| match refused {
            0 => format!("{name} {made}"),
            _ => format!("{name} {made} ({refused} refused)"),
        });
        let events = self.events.iter().map(|(name, count)| format!("{name} {count}"));
        writeln!(f, "calls: {}", calls.collect::<Vec<_>>().join(", "))?;
        write!(f, "of these: {}", events.collect::<Vec<_>>().join(", "))
    }
}

fn is_zeroed(dump: &Dump, address: u64) -> bool {
    let zeroed = |page: Page| page.marks & ZEROED != 0;
    view::frames(dump).any(|(start, page)| start == address && zeroed(page))
}
