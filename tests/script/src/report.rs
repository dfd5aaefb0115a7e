//! A difference as it is printed.

use crate::case::{Case, Outcome};

/// What one side printed, by its name.
pub struct Side<'a> {
    pub name: &'a str,
    pub printed: &'a [u8],
}

impl<'a> Side<'a> {
    pub fn new(name: &'a str, outcome: &'a Outcome) -> Side<'a> {
        Side { name, printed: outcome.printed() }
    }
}

/// The script, what differs, and what both sides printed; the first line that
/// differs has a mark.
pub fn difference(case: &Case, what: &str, sides: [Side; 2]) -> String {
    let mut text = format!("{case}they differ in {what}\n");
    let lines = sides.each_ref().map(|side| side.printed.split(|&byte| byte == b'\n'));
    let [ours, theirs] = lines.map(|lines| lines.collect::<Vec<_>>());
    let count = ours.len().max(theirs.len());
    let first = (0..count).find(|&line| ours.get(line) != theirs.get(line));
    for (side, lines) in sides.iter().zip([ours, theirs]) {
        text += &format!("{} printed:\n", side.name);
        for (number, line) in lines.into_iter().enumerate() {
            let mark = if Some(number) == first { "*" } else { " " };
            text += &format!(" {mark} {}\n", line.escape_ascii());
        }
    }
    text
}
