//! What was tried and how it went, so that one sees that the run wasn't idle.

use std::collections::BTreeMap;

use crate::damage::{Kind, KINDS};
use crate::sheet::{Sentence, SENTENCES};

const LEAST_DAMAGES: u64 = 100_000;

#[derive(Default)]
pub struct Tally {
    pub tables: u64,
    /// Damages of each kind, and how many of them tore.
    kinds: BTreeMap<Kind, (u64, u64)>,
    /// How often a sentence was the first to fail.
    torn: BTreeMap<Sentence, u64>,
}

impl Tally {
    pub fn count(&mut self, kind: Kind, torn_by: Option<Sentence>) {
        assert!(KINDS.contains(&kind), "a kind without a name: {kind}");
        let (tried, torn) = self.kinds.entry(kind).or_default();
        *tried += 1;
        if let Some(sentence) = torn_by {
            *torn += 1;
            *self.torn.entry(sentence).or_default() += 1;
        }
    }

    fn damages(&self) -> u64 {
        self.kinds.values().map(|(tried, _)| tried).sum()
    }

    fn whole(&self) -> u64 {
        self.kinds.values().map(|(tried, torn)| tried - torn).sum()
    }

    fn torn_first_by(&self, sentence: Sentence) -> u64 {
        self.torn.get(sentence).copied().unwrap_or(0)
    }

    /// One line.
    pub fn summary(&self) -> String {
        let first = SENTENCES.map(|it| format!("{it} {}", self.torn_first_by(it))).join(", ");
        let (damages, whole) = (self.damages(), self.whole());
        format!(
            "sheet: {} tables, {damages} damages, {whole} still whole; torn first by: {first}",
            self.tables
        )
    }

    /// The damages of each kind, a line each.
    pub fn kinds(&self) -> String {
        let line = |kind: Kind| {
            let (tried, torn) = self.kinds.get(kind).copied().unwrap_or_default();
            format!("  {kind}: {torn} of {tried} tore\n")
        };
        KINDS.map(line).concat()
    }

    /// Why the run says too little, if it does.
    pub fn want(&self) -> Option<String> {
        if self.damages() < LEAST_DAMAGES {
            return Some(format!("{} damages are too few", self.damages()));
        }
        if self.whole() == 0 {
            return Some("no damage left a table whole".into());
        }
        let never = |kind: &&Kind| self.kinds.get(**kind).is_none_or(|(_, torn)| *torn == 0);
        if let Some(kind) = KINDS.iter().find(never) {
            return Some(format!("no damage of the kind `{kind}` tore a table"));
        }
        let idle = SENTENCES.into_iter().find(|it| self.torn_first_by(it) == 0);
        idle.map(|sentence| format!("no table was torn first by the sentence `{sentence}`"))
    }
}
