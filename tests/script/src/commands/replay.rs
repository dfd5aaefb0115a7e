//! The linked run and the model against a sample of the kernel's answers, and
//! against the examples.

use script::{
    case::{Case, PROGRAM},
    vectors,
};

use super::{as_expected, Done};

pub fn replay(file: &str) -> Done {
    let bytes = bytes(file)?;
    let vectors = vectors::read(&bytes).ok_or(format!("{file} has another form"))?;
    for (vector, number) in vectors.iter().zip(1..) {
        let told = |what: String| format!("script {number} of {file}: {what}");
        as_expected(&vector.case, &vector.printed).map_err(told)?;
    }
    let lines: usize = vectors.iter().map(|vector| vector.case.lines.len()).sum();
    Ok(format!("script: {} sampled scripts, {lines} lines, as the Rust has them\n", vectors.len()))
}

/// A script `NAME.txt` on the program's loans prints `NAME.out`.
pub fn example(name: &str) -> Done {
    let (script, printed) = (bytes(&format!("{name}.txt"))?, bytes(&format!("{name}.out"))?);
    let text = script.strip_suffix(b"\n").ok_or(format!("{name}.txt lacks its last line feed"))?;
    let lines = text.split(|&byte| byte == b'\n').map(<[u8]>::to_vec).collect();
    as_expected(&Case { lines, ended: true, lent: PROGRAM }, &printed)?;
    Ok(format!("script: {name} prints what it should\n"))
}

fn bytes(file: &str) -> Result<Vec<u8>, String> {
    std::fs::read(file).map_err(|error| format!("{file}: {error}"))
}
