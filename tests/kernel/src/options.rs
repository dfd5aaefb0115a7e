//! The words of the command line.

pub const USAGE: &str = "usage: kernel COMMAND [--scripts N] [--calls K] [--seed S] [--first I]
  calls         every exported function on small stores, with answers written by hand
  declared ROOT the declarations below the repository's root: Rattle, Rust, C
  model         random scripts, each call through the crate, against the model
  both          random scripts in both forms of the counters, and against the model
  oracle        random scripts on common ground against the kernel's Rust
  --scripts N   random scripts (6000; 3000 for both; 1000 for oracle)
  --calls K     calls of each, about (30)
  --seed S      what they are made from (1)
  --first I     the number of the first (0)
`oracle` wants the feature oracle.";

pub struct Options {
    pub command: Command,
    pub scripts: Option<u64>,
    pub calls: u64,
    pub seed: u64,
    pub first: u64,
}

pub enum Command {
    Calls,
    Declared(String),
    Model,
    Both,
    Oracle,
}

impl Options {
    /// None where the words can't be read.
    pub fn read(mut words: impl Iterator<Item = String>) -> Option<Options> {
        let command = match words.next()?.as_str() {
            "calls" => Command::Calls,
            "declared" => Command::Declared(words.next()?),
            "model" => Command::Model,
            "both" => Command::Both,
            "oracle" => Command::Oracle,
            _ => return None,
        };
        let mut options = Options { command, scripts: None, calls: 30, seed: 1, first: 0 };
        while let Some(word) = words.next() {
            let value = words.next()?.parse().ok()?;
            match word.as_str() {
                "--scripts" => options.scripts = Some(value),
                "--calls" => options.calls = value,
                "--seed" => options.seed = value,
                "--first" => options.first = value,
                _ => return None,
            }
        }
        Some(options)
    }

    /// The numbers of the scripts.
    pub fn numbers(&self, scripts: u64) -> std::ops::Range<u64> {
        self.first..self.first + self.scripts.unwrap_or(scripts)
    }
}
