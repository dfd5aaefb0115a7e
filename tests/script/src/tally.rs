//! What was tried and how it went, so that one sees that the run wasn't idle.

use std::collections::BTreeMap;

use crate::{case::Case, make::BAD_SORTS};

#[derive(Default)]
pub struct Tally {
    pub scripts: u64,
    pub lines: u64,
    /// Printed answers by op and refusal; 0 is none.
    answers: BTreeMap<(String, u8), u64>,
    /// Bad lines by their sorts.
    bad: BTreeMap<&'static str, u64>,
    /// Runs that returned 0.
    silent: u64,
}

/// Answers that are wanted, by ops.
type Wanted = [(&'static str, &'static [u8])];

/// Those on common ground.
pub const ON_GROUND: &Wanted = &[
    ("boot split free zero dirty fill copy pcopy queue round lend back low stats", &[0]),
    ("alloc take", &[0, 9]),
    ("find", &[0, 11]),
    ("bad", &[17]),
];

/// All that a script can meet.
pub const ALL: &Wanted = &[
    ("boot", &[0, 1, 2, 3, 4, 5]),
    ("alloc take", &[0, 7, 8, 9, 10]),
    ("split free zero dirty", &[0, 11, 12, 13]),
    ("fill", &[0, 11, 12, 13, 14]),
    ("copy", &[0, 11, 12, 13, 14]),
    ("pcopy", &[0, 11, 12, 13, 14]),
    ("find", &[0, 11]),
    ("queue", &[0, 11, 12, 13, 16]),
    ("round", &[0]),
    ("lend", &[0]),
    ("back", &[0, 15]),
    ("low", &[0]),
    ("stats", &[0]),
    ("bad", &[17]),
];

/// Each is wanted at least so often.
const LEAST: u64 = 20;

impl Tally {
    pub fn count(&mut self, case: &Case, printed: &[u8]) {
        self.scripts += 1;
        self.lines += case.lines.len() as u64;
        self.silent += u64::from(printed.is_empty());
        let text = String::from_utf8_lossy(printed);
        for line in text.lines().skip(1).filter(|line| !line.starts_with(' ')) {
            // The head of the statistics stands for their five lines.
            let (op, rest) = line.split_once(',').unwrap_or(("stats", "0,"));
            let number = rest.split(',').next().and_then(|number| number.parse().ok());
            *self.answers.entry((op.into(), number.unwrap_or(u8::MAX))).or_default() += 1;
        }
    }

    pub fn count_bad(&mut self, sorts: &[&'static str]) {
        sorts.iter().for_each(|sort| *self.bad.entry(sort).or_default() += 1);
    }

    /// A few lines.
    pub fn summary(&self) -> String {
        let mut ops: BTreeMap<&str, Vec<String>> = BTreeMap::new();
        for ((op, number), count) in &self.answers {
            ops.entry(op).or_default().push(format!("{number}: {count}"));
        }
        let ops = ops.iter().map(|(op, counts)| format!("{op} ({})", counts.join(", ")));
        let mut text = format!("answers: {}", ops.collect::<Vec<_>>().join(", "));
        if !self.bad.is_empty() {
            let sorts = self.bad.iter().map(|(sort, count)| format!("{sort} {count}"));
            text += &format!("\nbad lines: {}", sorts.collect::<Vec<_>>().join(", "));
            text += &format!("\nruns that returned 0: {}", self.silent);
        }
        text
    }

    /// Why the runs say too little, if they do.
    pub fn want(&self, wanted: &Wanted) -> Option<String> {
        for (ops, numbers) in wanted {
            for op in ops.split_whitespace() {
                let few = |number: &&u8| self.answered(op, **number) < LEAST;
                if let Some(number) = numbers.iter().find(few) {
                    return Some(format!("`{op}` was answered {number} under {LEAST} times"));
                }
            }
        }
        if wanted != ALL {
            return None;
        }
        let rare = |sort: &&&str| self.bad.get(**sort).is_none_or(|count| *count < LEAST);
        let sort = BAD_SORTS.iter().find(rare);
        sort.map(|sort| format!("bad lines of the sort `{sort}` came under {LEAST} times"))
    }

    fn answered(&self, op: &str, number: u8) -> u64 {
        self.answers.get(&(op.to_string(), number)).copied().unwrap_or(0)
    }
}
