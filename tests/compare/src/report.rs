//! What is printed of a list that differs: its script with the reference's
//! answers, and which parts the definitions give otherwise.

use crate::{record::Recorded, scratch::Failure, Named};

/// Of more equal lines, the ones in the middle are left out.
const MOST_EQUAL: usize = 6;

/// Of more names only these are printed.
const MOST_NAMES: usize = 8;

/// The lines of the script, each with the reference's answer behind it.
pub fn script(run: &Recorded) -> String {
    let mut lines: Vec<(String, String)> =
        run.map.iter().map(|entry| (entry.to_string(), String::new())).collect();
    lines.push(("boot".into(), format!("boot,0,0,{}", run.managed)));
    for (call, answer) in run.calls.iter().zip(&run.answers) {
        lines.push((call.to_string(), answer.line(call.op())));
    }
    let width = lines.iter().map(|(line, _)| line.len()).max().unwrap_or(0);
    let mut text = String::new();
    for equal in lines.chunk_by(|a, b| a.0 == b.0) {
        let left_out = equal.len().saturating_sub(MOST_EQUAL);
        for (place, (line, answer)) in equal.iter().enumerate() {
            if left_out > 0 && place == MOST_EQUAL / 2 {
                text += &format!("    ({} more of {line})\n", grouped(left_out as u64));
            }
            if place < MOST_EQUAL / 2 || place >= MOST_EQUAL / 2 + left_out {
                let answer = answer.trim_end().replace('\n', &format!("\n    {:width$}    ", ""));
                text += format!("    {line:width$}    {answer}").trim_end();
                text += "\n";
            }
        }
    }
    text
}

/// A part that differs, and where, if the checker could say it.
pub fn difference(failure: &Failure) -> String {
    let part = failure.name.rsplit('-').next().unwrap_or(&failure.name);
    match first_difference(&failure.message) {
        Some((reference, definitions)) => {
            format!("differs in {part}: reference {reference}, definitions {definitions}\n")
        }
        None => format!("differs in {part}\n"),
    }
}

/// What the two sides of a theorem have where they differ, in the checker's
/// words: "one has `A` (expected) and the other has `B` (found)", which it may
/// lay out on several lines.
fn first_difference(message: &str) -> Option<(String, String)> {
    let message = message.split_whitespace().collect::<Vec<_>>().join(" ");
    let (_, computed) = message.split_once("computed as far as they go")?;
    let (_, rest) = computed.split_once("one has `")?;
    let (expected, rest) = rest.split_once("` (expected) and the other has `")?;
    let (found, _) = rest.split_once("` (found)")?;
    Some((expected.into(), found.into()))
}

/// The names of lists, or of the first of them.
pub fn names(lists: &[&Named]) -> String {
    let first = lists.iter().take(MOST_NAMES).map(|(name, _)| name.as_str());
    let text = first.collect::<Vec<_>>().join(", ");
    match lists.len().saturating_sub(MOST_NAMES) {
        0 => text,
        more => format!("{text} and {} more", grouped(more as u64)),
    }
}

/// A number with commas between its thousands.
pub fn grouped(number: u64) -> String {
    let digits = number.to_string();
    let mut text = String::new();
    for (place, digit) in digits.chars().enumerate() {
        if place > 0 && (digits.len() - place).is_multiple_of(3) {
            text.push(',');
        }
        text.push(digit);
    }
    text
}

#[cfg(test)]
mod tests {
    use super::{first_difference, grouped};

    #[test]
    fn thousands_are_parted() {
        assert_eq!(["0", "999", "1,000", "12,345,678"], [0, 999, 1000, 12345678].map(grouped)[..]);
    }

    #[test]
    fn the_sides_of_a_difference() {
        let message = "as printed, ..\n  computed as far as they go, the two types differ only \
                       where one has `15` (expected) and the other has `14`\n  (found)\n  expected type";
        assert_eq!(first_difference(message), Some(("15".into(), "14".into())));
        assert_eq!(first_difference("what the two types compute to is not shown"), None);
    }
}
