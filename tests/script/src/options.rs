//! The words of the command line.

pub const USAGE: &str = "usage: script COMMAND [--scripts N] [--calls K] [--seed S] [--first I]
  model         the linked run against the model: fixed scripts, then random ones
  oracle        both against the kernel's Rust: random scripts on common ground
  vectors       prints a sample of the answers of the kernel's Rust
  replay FILE   the linked run and the model against such a sample
  example NAME  both on the script NAME.txt, which prints NAME.out
  --scripts N   random scripts (20000; 2000 for oracle; 320 for vectors)
  --calls K     calls of each, about (30)
  --seed S      what they are made from (1)
  --first I     the number of the first (0)
`oracle` and `vectors` want the feature oracle.";

pub struct Options {
    pub command: Command,
    pub scripts: Option<u64>,
    pub calls: Option<u64>,
    pub seed: u64,
    pub first: u64,
}

pub enum Command {
    Model,
    Oracle,
    Vectors,
    Replay(String),
    Example(String),
}

impl Options {
    /// None where the words can't be read.
    pub fn read(mut words: impl Iterator<Item = String>) -> Option<Options> {
        let command = match words.next()?.as_str() {
            "model" => Command::Model,
            "oracle" => Command::Oracle,
            "vectors" => Command::Vectors,
            "replay" => Command::Replay(words.next()?),
            "example" => Command::Example(words.next()?),
            _ => return None,
        };
        let mut options = Options { command, scripts: None, calls: None, seed: 1, first: 0 };
        while let Some(word) = words.next() {
            let value = words.next()?.parse().ok()?;
            match word.as_str() {
                "--scripts" => options.scripts = Some(value),
                "--calls" => options.calls = Some(value),
                "--seed" => options.seed = value,
                "--first" => options.first = value,
                _ => return None,
            }
        }
        Some(options)
    }

    /// The numbers of the scripts.
    pub fn numbers(&self, scripts: u64) -> std::ops::Range<u64> {
        self.first..self.first + self.scripts.unwrap_or(scripts)
    }
}
