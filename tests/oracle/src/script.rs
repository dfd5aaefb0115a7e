//! Scripts, line by line: those of the script program, and the few lines more
//! that the oracle's own program knows.

use crate::{number, to_hex, Answer, Call, Entry, Run};

/// What is printed before all answers.
pub const HEADER: &str = "op,refusal,address,bytes\n";

const BAD: &str = "bad,17,0,0\n";

/// A longer line can't be read, but for `write`.
const LONGEST: usize = 512;

/// One script, as far as it was read.
#[derive(Default)]
pub struct Script {
    map: Vec<Entry>,
    run: Option<Run>,
    off: bool,
}

impl Script {
    /// What a line prints, given without its line feed. The first that is off
    /// common ground prints `off,REASON`, and those after it nothing.
    pub fn answer(&mut self, line: &[u8]) -> String {
        let Ok(line) = std::str::from_utf8(line) else {
            return self.bad();
        };
        if line.len() > LONGEST && !line.starts_with("write,") {
            return self.bad();
        }
        match line.split(',').collect::<Vec<_>>()[..] {
            ["region", ..] => self.region(line),
            ["boot"] => self.boot(),
            ["dump"] => match &mut self.run {
                Some(run) => format!("{}end\n", run.dump()),
                None => self.bad(),
            },
            ["bytes", address, length] => self.bytes(address, length),
            _ => self.call(line),
        }
    }

    /// The run, once there was a boot.
    pub fn run(&mut self) -> Option<&mut Run> {
        self.run.as_mut()
    }

    fn bad(&self) -> String {
        if self.off { "" } else { BAD }.into()
    }

    fn region(&mut self, line: &str) -> String {
        match line.parse() {
            Ok(entry) if self.run.is_none() => {
                self.map.push(entry);
                String::new()
            }
            _ => self.bad(),
        }
    }

    fn boot(&mut self) -> String {
        if self.run.is_some() {
            return self.bad();
        }
        let run = self.run.insert(Run::start(&self.map));
        let answer = run.booted().clone();
        self.printed("boot", answer)
    }

    fn call(&mut self, line: &str) -> String {
        match (line.parse::<Call>(), &mut self.run) {
            (Ok(_), _) if self.off => String::new(),
            (Ok(call), Some(run)) => {
                let answer = run.call(&call);
                self.printed(call.op(), answer)
            }
            _ => self.bad(),
        }
    }

    fn bytes(&mut self, address: &str, length: &str) -> String {
        let bytes = match (number(address), number(length), &mut self.run) {
            (Ok(address), Ok(length), Some(run)) => run.try_bytes(address, length),
            _ => None,
        };
        match bytes {
            Some(bytes) => format!("bytes,{}\n", to_hex(&bytes)),
            None => BAD.into(),
        }
    }

    fn printed(&mut self, op: &str, answer: Answer) -> String {
        self.off = matches!(answer, Answer::Off(_));
        answer.line(op)
    }
}
