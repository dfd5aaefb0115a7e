//! Numbers that have names.

use jilakkor::Error;

use super::{header, rattle};
use crate::calls::OPS;

/// The sizes of the state's words, in the definition, the crate and the header.
pub fn sizes(words: &str, text: &str) -> Result<(), String> {
    let sizes = [
        ("version", jilakkor::VERSION, "JILAKKOR_VERSION"),
        ("state_words", jilakkor::WORDS as u64, "JILAKKOR_WORDS"),
    ];
    for (name, in_rust, in_c) in sizes {
        let start = format!("{name} = ");
        let line = words.lines().find_map(|line| line.strip_prefix(&start));
        let number = line.and_then(|line| line.trim().parse().ok());
        let in_c = header::defined(text, in_c);
        if number != Some(in_rust) || number != in_c {
            return Err(format!("{name} is {number:?}, in Rust {in_rust}, in C {in_c:?}"));
        }
    }
    let sizes = [
        (jilakkor::MAX_REGIONS, "JILAKKOR_ROWS"),
        (jilakkor::RECORD_BYTES, "JILAKKOR_RECORD_BYTES"),
        (jilakkor::STATS_BYTES, "JILAKKOR_STATS_BYTES"),
        (jilakkor::LEVEL_SIZES[0], "JILAKKOR_PAGE_BYTES"),
        (jilakkor::LEVEL_SIZES[1], "JILAKKOR_LARGE_BYTES"),
        (jilakkor::LEVEL_SIZES[2], "JILAKKOR_HUGE_BYTES"),
    ];
    let other = sizes.iter().find(|it| header::defined(text, it.1) != Some(it.0 as u64));
    other.map_or(Ok(()), |(size, name)| Err(format!("{name} is not {size}")))
}

/// The refusals: their order in the definition, and the crate's and the header's
/// names, numbers and words.
pub fn refusals(definition: &str, text: &str) -> Result<(), String> {
    let cases = rattle::cases(definition, "Refusal")?;
    if Error::from(cases.len() as u32 + 1) != Error::Unknown(cases.len() as u32 + 1) {
        return Err("the crate has a refusal more".into());
    }
    for (case, number) in cases.iter().zip(1..) {
        let error = Error::from(number);
        let in_c = header::enumerated(text, &format!("JILAKKOR_{}", upper(case)));
        let expected = (u64::from(number), error.to_string());
        if format!("{error:?}") != *case || in_c.as_ref() != Some(&expected) {
            return Err(format!("refusal {number} is {case}, in Rust {error:?}, in C {in_c:?}"));
        }
    }
    Ok(())
}

/// The ops of calls by number.
pub fn ops(lines: &str, store: &str, text: &str) -> Result<(), String> {
    let mut cases = rattle::cases(lines, "Ask")?;
    // Those that answer by bytes and the boot stand behind the first.
    let asked = rattle::cases(store, "Asked")?;
    cases.extend(asked.into_iter().skip(1));
    if cases.len() != OPS.len() {
        return Err(format!("there are {} ops, and {} in Rust", cases.len(), OPS.len()));
    }
    for ((case, op), number) in cases.iter().zip(OPS).zip(0..) {
        let in_c = header::enumerated(text, &format!("JILAKKOR_OP_{}", upper(case)));
        let in_c = in_c.map(|it| it.0);
        if format!("{op:?}") != *case || op as u64 != number || in_c != Some(number) {
            return Err(format!("op {number} is {case}, in Rust {op:?}, in C {in_c:?}"));
        }
    }
    Ok(())
}

/// `NoFrame` as `NO_FRAME`.
fn upper(name: &str) -> String {
    let mut words = String::new();
    for letter in name.chars() {
        if letter.is_uppercase() && !words.is_empty() {
            words.push('_');
        }
        words.push(letter.to_ascii_uppercase());
    }
    words
}
