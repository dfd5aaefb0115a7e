//! One run to be tried: a script and what it is lent.

use std::fmt;

use crate::random::Random;

/// Bytes of the answer slice for each line, and beside them.
const ROOM: usize = 512;

#[derive(Clone)]
pub struct Case {
    /// Without their line feeds.
    pub lines: Vec<Vec<u8>>,
    /// Whether the last line ends with a line feed as well.
    pub ended: bool,
    pub lent: Lent,
}

/// Lengths of the loans, and what they hold at first.
#[derive(Clone, Copy)]
pub struct Lent {
    pub records: usize,
    pub memory: usize,
    pub queue: usize,
    /// By how much the answer slice is longer than it has to be.
    pub spare: isize,
    pub contents: Contents,
}

/// The program's own loans.
pub const PROGRAM: Lent = Lent {
    records: 16 * 16,
    memory: 64 << 10,
    queue: 64,
    spare: 0,
    contents: Contents::Memory(FILLER),
};

/// Bytes of managed memory at first, where the kernel's are compared: the oracle's
/// own filler.
pub const FILLER: u8 = 165;

/// What a loan holds at first.
#[derive(Clone, Copy)]
pub enum Contents {
    /// Random bytes of a seed.
    Noise(u64),
    /// Noise but in the memory, where every byte is the same.
    Memory(u8),
}

/// The loans, each with a margin on both sides that nobody may write. It is odd
/// for bytes, so that their addresses are.
#[derive(PartialEq)]
pub struct Loans {
    pub records: Vec<u8>,
    pub memory: Vec<u8>,
    pub queue: Vec<u64>,
    pub answer: Vec<u8>,
}

pub const MARGIN: usize = 61;

/// What a run left: the number that it returned, and the loans.
pub struct Outcome {
    pub returned: usize,
    pub loans: Loans,
}

impl Case {
    pub fn script(&self) -> Vec<u8> {
        let mut script = self.lines.join(&b'\n');
        if self.ended && !self.lines.is_empty() {
            script.push(b'\n');
        }
        script
    }

    /// The length of the answer slice.
    pub fn answer(&self) -> usize {
        let script = self.script();
        let feeds = script.iter().filter(|&&byte| byte == b'\n').count();
        let open = script.last().is_some_and(|&byte| byte != b'\n');
        let needed = ROOM * (feeds + usize::from(open)) + ROOM;
        needed.saturating_add_signed(self.lent.spare)
    }

    /// The loans before the run.
    pub fn loans(&self) -> Loans {
        let Lent { records, memory, queue, contents, .. } = self.lent;
        let (seed, memory) = match contents {
            Contents::Noise(seed) => (seed, noise(seed ^ 2, memory)),
            Contents::Memory(byte) => (byte.into(), vec![byte; memory + 2 * MARGIN]),
        };
        let mut words = Random::of_list(seed, 3);
        Loans {
            records: noise(seed ^ 1, records),
            memory,
            queue: (0..queue + 2 * MARGIN).map(|_| words.next()).collect(),
            answer: noise(seed ^ 4, self.answer()),
        }
    }
}

/// Random bytes for a loan and its margins.
fn noise(seed: u64, length: usize) -> Vec<u8> {
    let mut bytes = vec![0; length + 2 * MARGIN];
    let mut random = Random::of_list(seed, 0);
    for part in bytes.chunks_mut(8) {
        part.copy_from_slice(&random.next().to_le_bytes()[..part.len()]);
    }
    bytes
}

/// A loan without its margins.
pub fn lent<T>(loan: &[T]) -> &[T] {
    &loan[MARGIN..loan.len() - MARGIN]
}

pub fn lent_mut<T>(loan: &mut [T]) -> &mut [T] {
    let end = loan.len() - MARGIN;
    &mut loan[MARGIN..end]
}

impl Outcome {
    pub fn printed(&self) -> &[u8] {
        let answer = lent(&self.loans.answer);
        &answer[..self.returned.min(answer.len())]
    }

    /// The first thing that differs, in words.
    pub fn difference(&self, other: &Outcome) -> Option<String> {
        if self.printed() != other.printed() {
            return Some("what is printed".into());
        }
        if self.returned != other.returned {
            return Some(format!("returned {} and {}", self.returned, other.returned));
        }
        let (ours, theirs) = (&self.loans, &other.loans);
        None.or_else(|| differing("records", &ours.records, &theirs.records))
            .or_else(|| differing("memory", &ours.memory, &theirs.memory))
            .or_else(|| differing("queue", &ours.queue, &theirs.queue))
            .or_else(|| differing("answer", &ours.answer, &theirs.answer))
    }
}

fn differing<T: PartialEq + fmt::Display>(loan: &str, ours: &[T], theirs: &[T]) -> Option<String> {
    if ours == theirs {
        return None;
    }
    let at = ours.iter().zip(theirs).position(|(a, b)| a != b)?;
    let place = at as isize - MARGIN as isize;
    let length = ours.len() - 2 * MARGIN;
    Some(format!("{loan}, at {place} of {length}: {} and {}", ours[at], theirs[at]))
}

impl fmt::Display for Case {
    /// The script, other bytes than printable ones escaped, and the loans.
    fn fmt(&self, f: &mut fmt::Formatter) -> fmt::Result {
        let Lent { records, memory, queue, .. } = self.lent;
        let answer = self.answer();
        writeln!(f, "lent: records {records}, memory {memory}, queue {queue}, answer {answer}")?;
        for line in &self.lines {
            writeln!(f, "  {}", line.escape_ascii())?;
        }
        let open = !self.ended && !self.lines.is_empty();
        f.write_str(if open { "  (no line feed at the end)\n" } else { "" })
    }
}
