//! The words of the command line.

use std::path::{Path, PathBuf};

pub const USAGE: &str = "usage: compare [--lists N] [--calls K] [--seed S] [--repo DIR] [--jobs J]
  --lists N   random lists, beside the fixed ones (200)
  --calls K   calls of each (30)
  --seed S    what they are made from (1)
  --repo DIR  the repository whose definitions are compared (this one)
  --jobs J    crates that are checked at a time (the processors, at most 4)";

pub struct Options {
    pub lists: u64,
    pub calls: usize,
    pub seed: u64,
    pub repository: PathBuf,
    pub jobs: usize,
}

impl Options {
    /// None where the words can't be read.
    pub fn read(mut words: impl Iterator<Item = String>) -> Option<Options> {
        let processors = std::thread::available_parallelism().map_or(1, usize::from);
        let mut options = Options {
            lists: 200,
            calls: 30,
            seed: 1,
            repository: Path::new(env!("CARGO_MANIFEST_DIR")).join("../.."),
            jobs: processors.min(4),
        };
        while let Some(word) = words.next() {
            let value = words.next()?;
            match word.as_str() {
                "--lists" => options.lists = value.parse().ok()?,
                "--calls" => options.calls = value.parse().ok()?,
                "--seed" => options.seed = value.parse().ok()?,
                "--repo" => options.repository = value.into(),
                "--jobs" => options.jobs = value.parse().ok().filter(|jobs| *jobs > 0)?,
                _ => return None,
            }
        }
        Some(options)
    }
}
