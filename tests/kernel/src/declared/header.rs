//! Declarations in C.

use super::{Fields, Function, Functions};

/// The types of the header by Rust's names.
const TYPES: [(&str, &str); 6] = [
    ("uint8_t", "u8"),
    ("uint32_t", "u32"),
    ("uint64_t", "u64"),
    ("size_t", "usize"),
    ("struct jilakkor_region", "Entry"),
    ("struct jilakkor_counters", "Counters"),
];

/// The functions of a header, each of which returns an `uint32_t`.
pub fn functions(text: &str) -> Result<Functions, String> {
    let text = without_comments(text);
    let declared = text.split(';').filter(|it| it.contains('('));
    let declared = declared.filter(|it| !it.contains("typedef"));
    declared.map(|it| function(it.trim())).collect()
}

fn without_comments(text: &str) -> String {
    let mut rest = text;
    let mut kept = String::new();
    while let Some((before, after)) = rest.split_once("/*") {
        kept += before;
        rest = after.split_once("*/").map_or("", |it| it.1);
    }
    let kept = kept + rest;
    let lines = kept.lines().filter(|line| !line.starts_with('#'));
    lines.collect::<Vec<_>>().join("\n")
}

fn function(text: &str) -> Result<(String, Function), String> {
    let bad = || format!("a declaration of another form: {text}");
    let (head, taken) = text.split_once('(').ok_or_else(bad)?;
    let taken = taken.trim_end().strip_suffix(')').ok_or_else(bad)?;
    let head = head.trim().rsplit('\n').next().unwrap_or(head);
    let (returns, name) = variable(head).ok_or_else(bad)?;
    let takes: Option<Vec<_>> = taken.split(',').map(variable).collect();
    let takes = takes.ok_or_else(bad)?.into_iter().map(|(of, name)| (name, of)).collect();
    Ok((name, Function { takes, returns }))
}

/// The type and the name of a parameter, a field or a function.
fn variable(text: &str) -> Option<(String, String)> {
    let text = text.trim();
    let start = text.rfind([' ', '*'])? + 1;
    let (of, name) = text.split_at(start);
    let of = of.trim();
    let named = |name: &str| TYPES.iter().find(|it| it.0 == name).map(|it| it.1);
    let of = match (of.strip_prefix("const "), of.strip_suffix('*')) {
        (Some(of), _) => format!("*const {}", named(of.strip_suffix('*')?.trim())?),
        (None, Some(of)) => format!("*mut {}", named(of.trim())?),
        (None, None) => named(of)?.into(),
    };
    Some((of, name.into()))
}

/// The fields of a struct.
pub fn fields(text: &str, name: &str) -> Result<Fields, String> {
    let text = without_comments(text);
    let start = format!("struct {name} {{");
    let (_, rest) = text.split_once(&start).ok_or(format!("no struct {name}"))?;
    let (body, _) = rest.split_once('}').ok_or(format!("the struct {name} has no end"))?;
    let fields = body.split(';').map(str::trim).filter(|it| !it.is_empty());
    let fields = fields.map(|it| variable(it).map(|(of, name)| (name, of)));
    fields.collect::<Option<_>>().ok_or(format!("a field of {name} of another form"))
}

/// The number of a `#define`.
pub fn defined(text: &str, name: &str) -> Option<u64> {
    let start = format!("#define {name} ");
    let rest = text.lines().find_map(|line| line.strip_prefix(&start))?;
    rest.split_whitespace().next()?.parse().ok()
}

/// The number of an enumerator, and the word that its comment starts with.
pub fn enumerated(text: &str, name: &str) -> Option<(u64, String)> {
    let start = format!("{name} = ");
    let rest = text.lines().find_map(|line| line.trim_start().strip_prefix(&start))?;
    let (number, comment) = rest.split_once("/*").unwrap_or((rest, ""));
    let number = number.trim().trim_end_matches(',').parse().ok()?;
    Some((number, comment.split([':', '*']).next()?.trim().into()))
}
