//! Makes a list on which the definitions differ from the reference as short as
//! it goes: leaves out calls and entries of the map and takes pages off regions
//! as long as a difference remains.

use oracle::{Answer, Call, Entry};

use crate::{
    antt,
    map::PAGE,
    record::{Recorded, Recorder},
    scratch::Scratch,
};

/// The shortest list found. It differs still; no part of it can be left out.
pub fn shortest(scratch: &Scratch, run: Recorded) -> Result<Recorded, String> {
    let mut best = run;
    loop {
        let size = measure(&best);
        eprintln!("compare: {} calls on {} pages differ", size.0, size.2);
        let coarse = differing(scratch, &best, coarse_cuts(&best))?;
        if let Some((_, shorter)) = coarse.into_iter().next() {
            best = shorter;
            continue;
        }
        let single = differing(scratch, &best, fine_cuts(&best))?;
        // What can go alone can often go together.
        let calls: Vec<usize> = single.iter().flat_map(|(cut, _)| cut.calls.clone()).collect();
        let halves = calls.split_at(calls.len() / 2);
        let joined = [&calls[..], halves.0, halves.1].map(|calls| Cut::of_calls(calls.to_vec()));
        let together = differing(scratch, &best, joined.into())?;
        match together.into_iter().chain(single).min_by_key(|(_, run)| measure(run)) {
            Some((_, shorter)) => best = shorter,
            None => return Ok(best),
        }
    }
}

/// What is left out of a list: calls by their places, and a change of the map.
#[derive(Clone)]
struct Cut {
    calls: Vec<usize>,
    map: Option<Vec<Entry>>,
}

impl Cut {
    fn of_calls(mut calls: Vec<usize>) -> Cut {
        calls.sort();
        calls.dedup();
        Cut { calls, map: None }
    }

    fn of_map(map: Vec<Entry>) -> Cut {
        Cut { calls: Vec::new(), map: Some(map) }
    }
}

/// What is made smaller: calls, then entries, then pages, then odd bytes.
fn measure(run: &Recorded) -> (usize, usize, u64, u64) {
    let odd = |entry: &Entry| entry.start % PAGE + entry.length % PAGE;
    let pages = run.dump.regions.iter().map(|region| region.pages).sum();
    (run.calls.len(), run.map.len(), pages, run.map.iter().map(odd).sum())
}

/// The cuts after which the list is smaller and still differs, the smallest
/// list first.
fn differing(
    scratch: &Scratch,
    run: &Recorded,
    cuts: Vec<Cut>,
) -> Result<Vec<(Cut, Recorded)>, String> {
    let mut tried: Vec<(Cut, Recorded)> = Vec::new();
    for cut in cuts {
        let Some(shorter) = without(run, &cut) else {
            continue;
        };
        let same = |other: &Recorded| other.map == shorter.map && other.calls == shorter.calls;
        if measure(&shorter) < measure(run) && !tried.iter().any(|(_, other)| same(other)) {
            tried.push((cut, shorter));
        }
    }
    let theorem =
        |(number, (_, run)): (usize, &(Cut, Recorded))| antt::whole(&format!("cut-{number}"), run);
    let theorems: Vec<_> = tried.iter().enumerate().map(theorem).collect();
    if theorems.is_empty() {
        return Ok(Vec::new());
    }
    let failing = scratch.failing(theorems)?;
    let differs = |number: usize| {
        failing.iter().any(|it| it.is_difference() && it.name == format!("cut-{number}"))
    };
    let mut differing: Vec<_> = tried
        .into_iter()
        .enumerate()
        .filter(|(number, _)| differs(*number))
        .map(|(_, it)| it)
        .collect();
    differing.sort_by_key(|(_, run)| measure(run));
    Ok(differing)
}

/// Large cuts: all after some place, a half, a quarter, an eighth of the calls,
/// an entry of the map.
fn coarse_cuts(run: &Recorded) -> Vec<Cut> {
    let groups = groups(run);
    let cut = |groups: &[Vec<usize>]| Cut::of_calls(groups.concat());
    let mut cuts = Vec::new();
    let mut keep = 0;
    while keep < groups.len() {
        cuts.push(cut(&groups[keep..]));
        keep += keep.div_ceil(2).max(1);
    }
    for parts in [2, 4, 8] {
        if groups.len() >= 2 * parts {
            cuts.extend(groups.chunks(groups.len().div_ceil(parts)).map(cut));
        }
    }
    cuts.extend((0..run.map.len()).map(|place| {
        let mut map = run.map.clone();
        map.remove(place);
        Cut::of_map(map)
    }));
    cuts
}

/// Small cuts: one group of calls, a part of a group, some pages of a region, its
/// odd bytes.
fn fine_cuts(run: &Recorded) -> Vec<Cut> {
    let mut cuts = Vec::new();
    for group in groups(run) {
        let mut count = group.len();
        while count > 0 {
            cuts.push(Cut::of_calls(group[..count].to_vec()));
            count /= 2;
        }
    }
    for (place, entry) in run.map.iter().enumerate() {
        let half = entry.length / 2 / PAGE * PAGE;
        let Entry { start, length, kind } = *entry;
        for changed in [
            Entry { length: half, ..*entry },
            Entry { start: start.saturating_add(half), length: length - half, kind },
            Entry { length: length.saturating_sub(PAGE), ..*entry },
            Entry { start: start.saturating_add(PAGE), length: length.saturating_sub(PAGE), kind },
            Entry { length: length / PAGE * PAGE, ..*entry },
            Entry { start: start / PAGE * PAGE, length: length.saturating_add(start % PAGE), kind },
        ] {
            let mut map = run.map.clone();
            map[place] = changed;
            cuts.push(Cut::of_map(map));
        }
    }
    cuts
}

/// The places of the calls, those of equal neighbours together.
fn groups(run: &Recorded) -> Vec<Vec<usize>> {
    let places: Vec<usize> = (0..run.calls.len()).collect();
    places.chunk_by(|a, b| run.calls[*a] == run.calls[*b]).map(<[usize]>::to_vec).collect()
}

/// The run after a cut, or None where it leaves common ground. A frame that is
/// now granted elsewhere is named by its new address.
fn without(run: &Recorded, cut: &Cut) -> Option<Recorded> {
    let mut recorder = Recorder::start(cut.map.as_ref().unwrap_or(&run.map)).ok()?;
    let mut moved: Vec<(u64, u64, u64)> = Vec::new();
    for (place, (call, old)) in run.calls.iter().zip(&run.answers).enumerate() {
        if cut.calls.binary_search(&place).is_ok() {
            continue;
        }
        let new = recorder.call(renamed(call, |address| {
            let holds =
                |(from, size, _): &&(u64, u64, u64)| (*from..from + size).contains(&address);
            match moved.iter().rev().find(holds) {
                Some((from, _, to)) => address - from + to,
                None => address,
            }
        }));
        let new = new.ok()?;
        if let (Call::Alloc { .. } | Call::Take { .. }, Answer::Done { address: from, bytes }) =
            (call, old)
        {
            if let Answer::Done { address: to, .. } = new {
                moved.push((*from, *bytes, *to));
            }
        }
    }
    Some(recorder.finish())
}

/// The call with its addresses put through a function.
fn renamed(call: &Call, name: impl Fn(u64) -> u64) -> Call {
    match call.clone() {
        Call::Split(address) => Call::Split(name(address)),
        Call::Free(address) => Call::Free(name(address)),
        Call::Zero(address) => Call::Zero(name(address)),
        Call::Dirty(address) => Call::Dirty(name(address)),
        Call::Find(address) => Call::Find(name(address)),
        Call::Queue(address) => Call::Queue(name(address)),
        Call::Fill { address, offset, length, byte } => {
            Call::Fill { address: name(address), offset, length, byte }
        }
        Call::Write { address, offset, bytes } => {
            Call::Write { address: name(address), offset, bytes }
        }
        Call::Read { address, offset, length } => {
            Call::Read { address: name(address), offset, length }
        }
        Call::Copy { target, target_offset, source, source_offset, length } => Call::Copy {
            target: name(target),
            target_offset,
            source: name(source),
            source_offset,
            length,
        },
        Call::Pcopy { target, target_offset, source, length } => {
            Call::Pcopy { target: name(target), target_offset, source: name(source), length }
        }
        other => other,
    }
}

#[cfg(test)]
mod tests {
    use super::{without, Cut};
    use crate::record::record;

    #[test]
    fn later_calls_follow_a_frame_that_moves() {
        let map = ["region,1048576,65536,0".parse().unwrap()];
        let calls = ["alloc,4096,4096,0", "alloc,4096,4096,0", "zero,1105920"];
        let run = record(&map, &calls.map(|line| line.parse().unwrap())).unwrap();
        let shorter = without(&run, &Cut::of_calls(vec![0])).unwrap();
        let lines: Vec<_> = shorter.calls.iter().map(|call| call.to_string()).collect();
        assert_eq!(lines, ["alloc,4096,4096,0", "zero,1110016"]);
        assert!(
            without(&run, &Cut::of_calls(vec![1])).is_none(),
            "nothing is held at that address"
        );
    }
}
