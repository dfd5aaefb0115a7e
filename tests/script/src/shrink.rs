//! Makes a script on which two runs differ as short as it goes.

use crate::case::Case;

/// The case with lines left out for as long as it differs; no single line more
/// can be left out.
pub fn shortest(case: &Case, differs: impl Fn(&Case) -> bool) -> Case {
    let mut best = case.clone();
    let mut step = best.lines.len();
    while step > 0 {
        let before = best.lines.len();
        let mut at = 0;
        while at < best.lines.len() {
            let shorter = without(&best, at, step);
            if differs(&shorter) {
                best = shorter;
            } else {
                at += step;
            }
        }
        // What couldn't go at first may go once others have gone.
        step = if step == 1 && best.lines.len() < before { 1 } else { step / 2 };
    }
    best
}

fn without(case: &Case, at: usize, count: usize) -> Case {
    let mut shorter = case.clone();
    let end = (at + count).min(shorter.lines.len());
    shorter.lines.drain(at..end);
    shorter
}
