//! What a store is lent.

use jilakkor::{Error, FrameStore, MemoryRegion, FRAME_SIZE, RECORD_BYTES, WORDS};
use script::{
    case::{lent, lent_mut, MARGIN},
    random::Random,
};

use crate::ffi::Lent;

/// All loans of a store, each with a margin on both sides that nobody may write.
/// They start as noise.
#[derive(Clone, PartialEq)]
pub struct Lot {
    pub words: Vec<u64>,
    pub records: Vec<u8>,
    pub memory: Vec<u8>,
    pub queue: Vec<u64>,
    pub answer: Vec<u64>,
}

/// Places of the answer.
pub const ANSWER: usize = 2;

impl Lot {
    /// Loans for so many managed pages and places of the queue.
    pub fn new(pages: usize, queue: usize) -> Lot {
        Lot {
            words: noise(1, WORDS),
            records: noise(2, pages * RECORD_BYTES).into_iter().map(|word| word as u8).collect(),
            memory: noise(3, pages * FRAME_SIZE).into_iter().map(|word| word as u8).collect(),
            queue: noise(4, queue),
            answer: noise(5, ANSWER),
        }
    }

    /// All of them, without their margins.
    pub fn lent(&mut self) -> Lent<'_> {
        Lent {
            words: lent_mut(&mut self.words),
            records: lent_mut(&mut self.records),
            memory: lent_mut(&mut self.memory),
            queue: lent_mut(&mut self.queue),
            answer: lent_mut(&mut self.answer),
        }
    }

    pub fn boot(&mut self, map: &[MemoryRegion]) -> Result<FrameStore<'_>, Error> {
        let Lent { words, records, memory, queue, .. } = self.lent();
        FrameStore::boot(words, records, memory, queue, map)
    }

    pub fn resume(&mut self) -> Result<FrameStore<'_>, Error> {
        let Lent { words, records, memory, queue, .. } = self.lent();
        FrameStore::resume(words, records, memory, queue)
    }

    /// The answer's two numbers.
    pub fn answered(&self) -> [u64; 2] {
        let answer = lent(&self.answer);
        [answer[0], answer[1]]
    }

    /// The loans that differ, by their names.
    pub fn difference(&self, other: &Lot) -> Option<String> {
        let found = [
            ("words", self.words != other.words),
            ("records", self.records != other.records),
            ("memory", self.memory != other.memory),
            ("queue", self.queue != other.queue),
            ("answer", self.answer != other.answer),
        ];
        let names: Vec<_> = found.iter().filter(|it| it.1).map(|it| it.0).collect();
        (!names.is_empty()).then(|| names.join(", "))
    }
}

/// Random words for a loan and its margins.
pub fn noise(seed: u64, length: usize) -> Vec<u64> {
    let mut random = Random::of_list(seed, 7);
    (0..length + 2 * MARGIN).map(|_| random.next()).collect()
}
