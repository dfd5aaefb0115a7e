//! A run of the reference: a boot map and calls, and all that was seen of them.
//! A run is recorded call by call, so that who makes calls up can look at the
//! state in between.

use std::{collections::BTreeSet, ops::Range};

use oracle::{Answer, Call, Dump, Entry, Run};

use crate::{random::Random, statistics::Statistics};

/// Addresses that are looked at wherever they fall, beside those at the ends of
/// what was written.
const RANDOM_PLACES: u64 = 6;

/// Of what lay in a copy's source, only so many ends are looked at in its target.
const COPIED_ENDS: usize = 12;

/// A run under way.
pub struct Recorder {
    run: Run,
    pub map: Vec<Entry>,
    pub calls: Vec<Call>,
    pub answers: Vec<Answer>,
    /// The state after the last call.
    pub dump: Dump,
    /// The addresses that calls wrote to, in their order.
    pub written: Vec<Range<u64>>,
    /// Addresses on both sides of the ends of these, and where copies took them.
    ends: BTreeSet<u64>,
    statistics: Statistics,
}

/// A run at its end.
#[derive(Clone)]
pub struct Recorded {
    pub map: Vec<Entry>,
    pub managed: u64,
    pub calls: Vec<Call>,
    pub answers: Vec<Answer>,
    pub dump: Dump,
    /// Bytes of the memory, by address.
    pub bytes: Vec<(u64, u8)>,
    pub statistics: Statistics,
}

impl Recorder {
    /// The error is why the map is off common ground.
    pub fn start(map: &[Entry]) -> Result<Recorder, String> {
        let mut run = Run::start(map);
        if let Answer::Off(reason) = run.booted() {
            return Err(reason.clone());
        }
        Ok(Recorder {
            dump: run.dump(),
            run,
            map: map.to_vec(),
            calls: Vec::new(),
            answers: Vec::new(),
            written: Vec::new(),
            ends: BTreeSet::new(),
            statistics: Statistics::default(),
        })
    }

    /// Does a call and gives its answer. The error is why the call is off common
    /// ground; the run is then as if it had not been made, but does no other.
    pub fn call(&mut self, call: Call) -> Result<&Answer, String> {
        let answer = self.run.call(&call);
        if let Answer::Off(reason) = answer {
            return Err(format!("{call}: {reason}"));
        }
        if let Some(range) = written_by(&call, &answer).filter(|range| !range.is_empty()) {
            self.note_ends(&call, &range);
            self.written.push(range);
        }
        let before = std::mem::replace(&mut self.dump, self.run.dump());
        self.statistics.count(&before, &call, &answer, &self.dump);
        self.calls.push(call);
        self.answers.push(answer);
        Ok(&self.answers[self.answers.len() - 1])
    }

    pub fn finish(mut self) -> Recorded {
        let bytes = self.places().into_iter().map(|at| (at, self.run.bytes(at, 1)[0])).collect();
        let managed = match self.run.booted() {
            Answer::Done { bytes, .. } => *bytes,
            _ => unreachable!("a run that was started"),
        };
        Recorded {
            map: self.map,
            managed,
            calls: self.calls,
            answers: self.answers,
            dump: self.dump,
            bytes,
            statistics: self.statistics,
        }
    }

    fn note_ends(&mut self, call: &Call, written: &Range<u64>) {
        let Range { start, end } = *written;
        if let Some(source) = source_of(call) {
            let copied = self.ends.range(source..source + (end - start)).take(COPIED_ENDS);
            let copies: Vec<u64> = copied.map(|at| at - source + start).collect();
            self.ends.extend(copies);
        }
        self.ends.extend([start.wrapping_sub(1), start, end - 1, end]);
    }

    /// The managed addresses among the ends, and some others.
    fn places(&self) -> BTreeSet<u64> {
        let managed = managed(&self.dump);
        let mut places = self.ends.clone();
        // The same for the same map, so that a run can be repeated.
        let mut random = Random::of_list(0, self.map.len() as u64);
        for region in &managed {
            let count = RANDOM_PLACES.div_ceil(managed.len() as u64);
            places.extend((0..count).map(|_| random.within(region.start..=region.end - 1)));
        }
        places.retain(|place| managed.iter().any(|region| region.contains(place)));
        places
    }
}

/// The run of these calls, or why one of them is off common ground.
pub fn record(map: &[Entry], calls: &[Call]) -> Result<Recorded, String> {
    let mut recorder = Recorder::start(map)?;
    for call in calls {
        recorder.call(call.clone())?;
    }
    Ok(recorder.finish())
}

/// The managed addresses of each region.
pub fn managed(dump: &Dump) -> Vec<Range<u64>> {
    let range =
        |region: &oracle::Region| region.first..region.start + region.pages * crate::map::PAGE;
    dump.regions.iter().map(range).collect()
}

/// What an accepted call wrote, or would have written but for a mark that made
/// it needless.
fn written_by(call: &Call, answer: &Answer) -> Option<Range<u64>> {
    let Answer::Done { address, bytes } = *answer else {
        return None;
    };
    let from = |start: u64| Some(start..start + bytes);
    match *call {
        Call::Alloc { options, .. } | Call::Take { options, .. } if options & 1 != 0 => {
            from(address)
        }
        Call::Zero(_) => from(address),
        Call::Fill { offset, .. } | Call::Write { offset, .. } => from(address + offset),
        Call::Copy { target_offset, .. } | Call::Pcopy { target_offset, .. } => {
            from(address + target_offset)
        }
        _ => None,
    }
}

/// Where a copy takes its bytes from.
fn source_of(call: &Call) -> Option<u64> {
    match *call {
        Call::Copy { source, source_offset, .. } => Some(source + source_offset),
        Call::Pcopy { source, .. } => Some(source),
        _ => None,
    }
}
