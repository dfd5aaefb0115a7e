//! A sample of what the kernel's Rust answers, as one file: for each script a line
//! `script,LINES`, its lines, a line `answers,BYTES`, and as many bytes, the
//! header included. The program's own loans suffice for every script: memory of
//! 64 KiB, 16 records, a queue of 64. `crates/vectors/stdin` was made by
//! `cargo run --release -p script --features oracle -- vectors`, and is the same
//! whenever it is made again.

use crate::case::{Case, PROGRAM};

/// A script and what it prints.
pub struct Vector {
    pub case: Case,
    pub printed: Vec<u8>,
}

#[cfg(feature = "oracle")]
impl Vector {
    pub fn text(&self) -> Vec<u8> {
        let head = format!("script,{}\n", self.case.lines.len());
        let middle = format!("answers,{}\n", self.printed.len());
        [head.as_bytes(), &self.case.script(), middle.as_bytes(), &self.printed].concat()
    }
}

/// The vectors of a file, or None where it has another form.
pub fn read(mut file: &[u8]) -> Option<Vec<Vector>> {
    let mut vectors = Vec::new();
    while !file.is_empty() {
        let count = head(&mut file, "script,")?;
        let lines = (0..count).map(|_| line(&mut file)).collect::<Option<Vec<_>>>()?;
        let length = head(&mut file, "answers,")?;
        let (printed, rest) = file.split_at_checked(length)?;
        file = rest;
        let case = Case { lines, ended: true, lent: PROGRAM };
        vectors.push(Vector { case, printed: printed.to_vec() });
    }
    Some(vectors)
}

/// Takes a line off the file.
fn line(file: &mut &[u8]) -> Option<Vec<u8>> {
    let end = file.iter().position(|&byte| byte == b'\n')?;
    let line = file[..end].to_vec();
    *file = &file[end + 1..];
    Some(line)
}

/// The number of a line that starts with a word.
fn head(file: &mut &[u8], word: &str) -> Option<usize> {
    String::from_utf8(line(file)?).ok()?.strip_prefix(word)?.parse().ok()
}
