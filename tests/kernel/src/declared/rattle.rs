//! Declarations in Rattle and in Rust, whose forms are nearly the same.

use super::{Fields, Function, Functions};

/// The exported functions of a Rattle file, each with the attribute that has its
/// name stand in the archive.
pub fn exported(text: &str) -> Result<Functions, String> {
    let start = "pub extern \"C\" fn ";
    let named = format!("#[unsafe(no_mangle)]\n{start}");
    if text.matches(start).count() != text.matches(&named).count() {
        return Err("a function for C lacks #[unsafe(no_mangle)]".into());
    }
    functions(text, &named)
}

/// The functions that a Rust file declares in its `extern "C"` block.
pub fn imported(text: &str) -> Result<Functions, String> {
    let (_, rest) = text.split_once("\nextern \"C\" {").ok_or("no extern block")?;
    let (block, _) = rest.split_once("\n}").ok_or("an extern block without an end")?;
    functions(block, "    fn ")
}

fn functions(text: &str, start: &str) -> Result<Functions, String> {
    text.split(start).skip(1).map(function).collect()
}

/// The function whose name comes first in a text.
fn function(text: &str) -> Result<(String, Function), String> {
    let bad = || format!("a declaration of another form: {:.60}", text);
    let (name, rest) = text.split_once('(').ok_or_else(bad)?;
    let (taken, rest) = rest.split_once(')').ok_or_else(bad)?;
    let rest = rest.trim_start().strip_prefix("->").ok_or_else(bad)?;
    let returns: String = rest.trim_start().chars().take_while(|it| it.is_alphanumeric()).collect();
    let takes = taken.split(',').map(str::trim).filter(|it| !it.is_empty());
    let takes: Option<Vec<_>> = takes.map(|it| it.split_once(':')).collect();
    let takes = takes.ok_or_else(bad)?.into_iter().flat_map(|(name, of)| passed(name, of.trim()));
    Ok((name.into(), Function { takes: takes.collect(), returns }))
}

/// As it is passed: a slice as a pointer and a length, a reference as a pointer.
fn passed(name: &str, of: &str) -> Vec<(String, String)> {
    let forms = [("&mut [", "*mut "), ("&[", "*const "), ("&mut ", "*mut "), ("&", "*const ")];
    for (form, pointer) in forms {
        let Some(element) = of.strip_prefix(form) else {
            continue;
        };
        let Some(element) = element.strip_suffix(']') else {
            return vec![(name.into(), format!("{pointer}{element}"))];
        };
        let length = (format!("{name}_len"), "usize".into());
        return vec![(name.into(), format!("{pointer}{element}")), length];
    }
    vec![(name.into(), of.into())]
}

/// The fields of a public struct.
pub fn fields(text: &str, name: &str) -> Result<Fields, String> {
    let start = format!("pub struct {name} {{");
    let (_, rest) = text.split_once(&start).ok_or(format!("no struct {name}"))?;
    let (body, _) = rest.split_once('}').ok_or(format!("the struct {name} has no end"))?;
    let lines = body.lines().filter_map(|line| line.trim().strip_prefix("pub "));
    let fields = lines.map(|line| {
        let (field, of) = line.trim_end_matches(',').split_once(':')?;
        Some((field.into(), of.trim().into()))
    });
    fields.collect::<Option<_>>().ok_or(format!("a field of {name} of another form"))
}

/// Whether `#[repr(C)]` stands among the attributes of a struct.
pub fn is_laid_out_as_in_c(text: &str, name: &str) -> bool {
    let before = text.split(&format!("pub struct {name} {{")).next().unwrap_or("");
    let attributes = before.lines().rev().take_while(|line| line.starts_with("#["));
    attributes.into_iter().any(|line| line == "#[repr(C)]")
}

/// The names of a public enum's cases.
pub fn cases(text: &str, name: &str) -> Result<Vec<String>, String> {
    let start = format!("pub enum {name} {{");
    let (_, rest) = text.split_once(&start).ok_or(format!("no enum {name}"))?;
    let (body, _) = rest.split_once('}').ok_or(format!("the enum {name} has no end"))?;
    let names = body.split(',').map(str::trim).filter(|it| !it.is_empty());
    Ok(names.map(String::from).collect())
}
