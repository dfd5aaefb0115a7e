//! The kernel's Rust by the oracle: what it answers to a script, and the state
//! that it leaves.

use oracle::{Dump, Region, Script, HEADER};

use crate::{
    case::{lent, Case, Outcome},
    model::Store,
    records,
};

const PAGE: u64 = 4096;

/// All that is seen of a run on the kernel's Rust.
pub struct Seen {
    /// Up to the line that is off common ground, if any is.
    pub printed: Vec<u8>,
    /// That line's number, from 1, and why it is.
    pub off: Option<(usize, String)>,
    dump: Dump,
    /// The managed bytes of each region.
    memory: Vec<Vec<u8>>,
}

pub fn run(case: &Case) -> Seen {
    let mut script = Script::default();
    let mut printed = HEADER.to_string();
    let mut off = None;
    for (line, number) in case.lines.iter().zip(1..) {
        let answer = script.answer(line);
        if let Some(reason) = answer.strip_prefix("off,") {
            off = Some((number, reason.trim_end().into()));
            break;
        }
        printed += &answer;
    }
    let mut seen = Seen { printed: printed.into(), off, dump: Dump::default(), memory: vec![] };
    if let Some(run) = script.run().filter(|_| seen.off.is_none()) {
        seen.dump = run.dump();
        let bytes = |region: &Region| run.bytes(region.first, managed(region) * PAGE);
        seen.memory = seen.dump.regions.iter().map(bytes).collect();
    }
    seen
}

fn managed(region: &Region) -> u64 {
    region.managed.len() as u64
}

impl Seen {
    /// What differs, in words. Of a script that leaves common ground only what
    /// was printed before that is compared.
    pub fn difference(&self, outcome: &Outcome) -> Option<String> {
        let printed = outcome.printed();
        if self.off.is_some() {
            let alike = printed.starts_with(&self.printed);
            return (!alike).then(|| "what is printed".into());
        }
        if printed != self.printed {
            return Some("what is printed".into());
        }
        let mut base = 0;
        for (region, memory) in self.dump.regions.iter().zip(&self.memory) {
            let found = frames_differ(region, lent(&outcome.loans.records), base);
            if let Some(what) = found.or_else(|| bytes_differ(memory, outcome, base)) {
                return Some(format!("the region at {}: {what}", region.first));
            }
            base += region.managed.len();
        }
        let queue = lent(&outcome.loans.queue).get(..self.dump.queue.len());
        (queue != Some(&self.dump.queue)).then(|| "the queue".into())
    }

    /// What a run keeps beside its loans.
    pub fn hidden_difference(&self, hidden: Hidden) -> Option<String> {
        if self.off.is_some() {
            return None;
        }
        let Hidden { counters, queued, pass } = hidden;
        let dump = &self.dump;
        let alike =
            counters == dump.counters && queued == dump.queue.len() as u64 && pass == dump.pass;
        (!alike).then(|| "counters, the queue's count or the pass".into())
    }
}

/// The counters in the order of the Rust's struct, the queue's count, and the
/// pass's rounds and freed.
pub struct Hidden {
    pub counters: [u64; 9],
    pub queued: u64,
    pub pass: (u64, u64),
}

impl Hidden {
    /// What the model keeps to itself.
    pub fn of(store: &Store) -> Hidden {
        let pass = (store.pass.rounds, store.pass.freed);
        Hidden { counters: store.counters(), queued: store.queued as u64, pass }
    }
}

/// Marks, levels and list orders.
fn frames_differ(region: &Region, records: &[u8], base: usize) -> Option<String> {
    let found = records::read(records, base, region.managed.len());
    for (number, (record, page)) in found.iter().zip(&region.managed).enumerate() {
        if (record.marks, record.level) != (page.marks.into(), page.level.into()) {
            return Some(format!("marks or level of page {}", base + number));
        }
    }
    for (place, list) in region.lists.iter().enumerate() {
        match records::list(&found, base, place) {
            Err(what) => return Some(what),
            Ok(pages) => {
                let address = |page: usize| region.first + page as u64 * PAGE;
                if pages.into_iter().map(address).ne(list.iter().copied()) {
                    return Some(format!("the order of list {place}"));
                }
            }
        }
    }
    None
}

fn bytes_differ(memory: &[u8], outcome: &Outcome, base: usize) -> Option<String> {
    let found = &lent(&outcome.loans.memory)[base * PAGE as usize..][..memory.len()];
    if found == memory {
        return None;
    }
    let at = found.iter().zip(memory).position(|(a, b)| a != b)?;
    Some(format!("byte {at} of its memory: {} and {}", found[at], memory[at]))
}
