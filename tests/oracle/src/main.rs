//! The oracle as a program: scripts in, answers out. It reads the lines of the
//! script program (`region`, `boot`, the calls) and prints its answers under its
//! header, and knows besides
//!
//! - `write,ADDRESS,OFFSET,HEX`, and `read,ADDRESS,OFFSET,LENGTH`, which prints
//!   `read,0,HEX`;
//! - `dump`, which prints all state as src/dump.rs says, then `end`;
//! - `bytes,ADDRESS,LENGTH`, which prints `bytes,HEX`: managed bytes of one
//!   region, held or not;
//! - `run`, which ends a script and starts the next, with a header of its own.
//!
//! Off common ground it prints `off,REASON` and passes over the rest of that
//! script but for `dump` and `bytes`. Lent sizes are not the kernel's: memory,
//! records and the queue have no end here.

use std::io::{self, BufRead, BufWriter, Write};

use oracle::{Script, HEADER};

fn main() -> io::Result<()> {
    let mut input = io::stdin().lock();
    let mut output = BufWriter::new(io::stdout());
    let mut script = Script::default();
    output.write_all(HEADER.as_bytes())?;
    // The header of a next script waits for its first line.
    let mut ended = false;
    let mut line = Vec::new();
    while input.read_until(b'\n', &mut line)? > 0 {
        if std::mem::take(&mut ended) {
            output.write_all(HEADER.as_bytes())?;
        }
        let text = line.strip_suffix(b"\n").unwrap_or(&line);
        if text == b"run" {
            script = Script::default();
            ended = true;
        } else {
            output.write_all(script.answer(text).as_bytes())?;
        }
        line.clear();
    }
    output.flush()
}
