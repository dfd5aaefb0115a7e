//! Compares what the library exports, as Rattle declares it, with the declarations
//! for Rust and for C: functions, structs, sizes, refusals and ops.

mod header;
mod names;
mod places;
mod rattle;

use std::{collections::BTreeMap, fs};

use crate::commands::Done;

/// A declared function. A slice is a pointer and a length; types go by Rust's names.
#[derive(PartialEq, Debug)]
struct Function {
    takes: Vec<(String, String)>,
    returns: String,
}

/// By their names.
type Functions = BTreeMap<String, Function>;

/// Names and types of a struct's fields.
type Fields = Vec<(String, String)>;

/// The texts that declare.
struct Texts {
    /// The functions that are exported.
    store: String,
    /// The types that are shared with the definitions.
    definition: String,
    /// The ops.
    lines: String,
    /// The words of the state.
    words: String,
    rust: String,
    header: String,
}

pub fn all(root: &str) -> Done {
    let texts = Texts::read(root)?;
    let exported = rattle::exported(&texts.store)?;
    if exported.is_empty() {
        return Err("no exported function is found".into());
    }
    compare("rust/src/ffi.rs", &exported, &rattle::imported(&texts.rust)?)?;
    compare("include/jilakkor.h", &exported, &header::functions(&texts.header)?)?;
    structs(&texts)?;
    names::sizes(&texts.words, &texts.header)?;
    names::refusals(&texts.definition, &texts.header)?;
    names::ops(&texts.lines, &texts.store, &texts.header)?;
    let places = every_place(root, &rattle::cases(&texts.lines, "Ask")?)?;
    let functions = exported.len();
    Ok(format!("{functions} exported functions, declared alike in Rattle, Rust and C; {places} places name every call"))
}

impl Texts {
    fn read(root: &str) -> Result<Texts, String> {
        let read = |file: &str| read(root, file);
        Ok(Texts {
            store: read("crates/store/src/lib.rt")?,
            definition: read("crates/definition/src/lib.rt")?,
            lines: read("crates/lines/src/lib.rt")?,
            words: read("crates/words/specs/Words.antt")?,
            rust: read("rust/src/ffi.rs")?,
            header: read("include/jilakkor.h")?,
        })
    }
}

/// How many places docs/ADDING-A-CALL.md lists, each of which names every call.
fn every_place(root: &str, cases: &[String]) -> Result<usize, String> {
    let guide = read(root, "docs/ADDING-A-CALL.md")?;
    let places = places::listed(&guide);
    for place in &places {
        let text = read(root, place.file)?;
        if let Some(case) = places::missing(&text, place.form, cases)? {
            return Err(format!(
                "{} does not name {case} as docs/ADDING-A-CALL.md says",
                place.file
            ));
        }
    }
    match places.len() {
        0 => Err("docs/ADDING-A-CALL.md lists no place".into()),
        many => Ok(many),
    }
}

fn read(root: &str, file: &str) -> Result<String, String> {
    let path = format!("{root}/{file}");
    fs::read_to_string(&path).map_err(|error| format!("{path}: {error}"))
}

/// Both have the same functions, each with the same names and types in its order.
fn compare(file: &str, exported: &Functions, declared: &Functions) -> Result<(), String> {
    for (name, function) in exported {
        match declared.get(name) {
            None => return Err(format!("{file} lacks {name}")),
            Some(other) if other != function => {
                return Err(format!("{name} in {file}: {other:?}\nbut it is {function:?}"))
            }
            Some(_) => {}
        }
    }
    match declared.keys().find(|name| !exported.contains_key(*name)) {
        Some(name) => Err(format!("{file} declares {name}, which is not exported")),
        None => Ok(()),
    }
}

fn structs(texts: &Texts) -> Result<(), String> {
    let structs = [
        ("Entry", &texts.store, "jilakkor_region"),
        ("Counters", &texts.definition, "jilakkor_counters"),
    ];
    for (name, text, in_c) in structs {
        let fields = rattle::fields(text, name)?;
        let found = [
            ("rust/src/ffi.rs", rattle::fields(&texts.rust, name)?),
            ("include/jilakkor.h", header::fields(&texts.header, in_c)?),
        ];
        if let Some((file, other)) = found.iter().find(|it| it.1 != fields) {
            return Err(format!("{name} in {file}: {other:?}\nbut it is {fields:?}"));
        }
        if !rattle::is_laid_out_as_in_c(&texts.rust, name) {
            return Err(format!("{name} in rust/src/ffi.rs lacks #[repr(C)]"));
        }
    }
    Ok(())
}
