//! A repository of its own in the system's directory for temporary files, with
//! copies of the definitions and, in crates beside them, the theorems to check.
//! It goes when it is dropped.

use std::{
    fs, io,
    path::{Path, PathBuf},
    process::{Command, Output},
};

use crate::antt::Theorem;

const OBSERVE: &str = include_str!("../templates/observe.txt");
const HEADER: &str = include_str!("../templates/header.txt");

const NO_CODE: &str = "// Holds no code: its theorems are about the definitions.\n";

/// What the checker says where it stopped before it could tell.
const LIMITS: [&str; 2] = ["the step limit", "not a judgement about the input"];

/// Theorems of one module; a module is what the checker reads at once.
const IN_A_MODULE: usize = 10;

pub struct Scratch {
    root: PathBuf,
    /// Crates that are checked at a time.
    jobs: usize,
}

/// A theorem that was not proved, and what the checker says of it.
pub struct Failure {
    pub name: String,
    pub message: String,
}

impl Failure {
    /// False where the checker could not tell whether the theorem holds: it met
    /// its step limit, or a limit of its own.
    pub fn is_difference(&self) -> bool {
        !LIMITS.iter().any(|limit| self.message.contains(limit))
    }
}

impl Scratch {
    pub fn new(repository: &Path, jobs: usize) -> io::Result<Scratch> {
        let root = std::env::temp_dir().join(format!("compare-{}", std::process::id()));
        let scratch = Scratch { root, jobs };
        // The definitions' own proofs are not compared, and would fail where a
        // definition is changed on purpose; the code beside them has its own.
        let copied: [(&str, &[&str]); 2] =
            [("address", &["src", "proofs"]), ("definition", &["src", "specs", "proofs/Refusal"])];
        for (name, parts) in copied {
            for part in parts {
                let from = repository.join("crates").join(name).join(part);
                copy(&from, &scratch.crate_directory(name).join(part))?;
            }
        }
        scratch.write("observe", "src/lib.rt", NO_CODE)?;
        scratch.write("observe", "specs/Lib.antt", "pub mod Observe\n")?;
        scratch.write("observe", "specs/Observe.antt", OBSERVE)?;
        Ok(scratch)
    }

    /// The theorems that were not proved. An error is anything else that keeps
    /// them from being checked.
    pub fn failing(&self, theorems: Vec<Theorem>) -> Result<Vec<Failure>, String> {
        let names: Vec<_> = theorems.iter().map(|theorem| theorem.name.clone()).collect();
        let output = self.check(theorems).map_err(|error| error.to_string())?;
        if output.status.success() {
            return Ok(Vec::new());
        }
        let said = String::from_utf8_lossy(&output.stdout);
        let failures = failures(&said);
        let all_ours = failures.iter().all(|failure| names.contains(&failure.name));
        if failures.is_empty() || !all_ours {
            return Err(format!("rt: {said}{}", String::from_utf8_lossy(&output.stderr)));
        }
        Ok(failures)
    }

    fn check(&self, theorems: Vec<Theorem>) -> io::Result<Output> {
        let mut list = "address:\ndefinition: address\nobserve: address definition\n".to_string();
        for (number, theorems) in shares(theorems, self.jobs).into_iter().enumerate() {
            let name = format!("compared{number}");
            let directory = self.crate_directory(&name);
            if directory.exists() {
                fs::remove_dir_all(&directory)?;
            }
            if theorems.is_empty() {
                continue;
            }
            list += &format!("{name}: definition observe\n");
            self.write(&name, "src/lib.rt", NO_CODE)?;
            let mut modules = String::new();
            for (number, theorems) in theorems.chunks(IN_A_MODULE).enumerate() {
                let texts = theorems.iter().map(|theorem| format!("\n{}", theorem.text));
                let text = HEADER.to_string() + &texts.collect::<String>();
                self.write(&name, &format!("proofs/Lists{number}.antt"), &text)?;
                modules += &format!("pub mod Lists{number}\n");
            }
            self.write(&name, "proofs/Lib.antt", &modules)?;
        }
        fs::write(self.root.join("crates.txt"), list)?;
        Command::new("rt")
            .args(["all", "check", "--jobs", &self.jobs.to_string()])
            .current_dir(&self.root)
            .output()
            .map_err(|error| io::Error::new(error.kind(), format!("rt: {error}")))
    }

    fn crate_directory(&self, name: &str) -> PathBuf {
        self.root.join("crates").join(name)
    }

    fn write(&self, name: &str, file: &str, text: &str) -> io::Result<()> {
        let path = self.crate_directory(name).join(file);
        fs::create_dir_all(path.parent().unwrap())?;
        fs::write(path, text)
    }
}

impl Drop for Scratch {
    fn drop(&mut self) {
        // What is left behind does no harm.
        let _ = fs::remove_dir_all(&self.root);
    }
}

fn copy(from: &Path, to: &Path) -> io::Result<()> {
    fs::create_dir_all(to)?;
    let entries = fs::read_dir(from)
        .map_err(|error| io::Error::new(error.kind(), format!("{}: {error}", from.display())))?;
    for entry in entries {
        let entry = entry?;
        let to = to.join(entry.file_name());
        if entry.file_type()?.is_dir() {
            copy(&entry.path(), &to)?;
        } else {
            fs::copy(entry.path(), to)?;
        }
    }
    Ok(())
}

/// The theorems in so many shares of about the same cost.
fn shares(mut theorems: Vec<Theorem>, count: usize) -> Vec<Vec<Theorem>> {
    theorems.sort_by_key(|theorem| std::cmp::Reverse(theorem.cost));
    let mut shares: Vec<(u64, Vec<Theorem>)> = (0..count).map(|_| (0, Vec::new())).collect();
    for theorem in theorems {
        let share = shares.iter_mut().min_by_key(|share| share.0).expect("one share at least");
        share.0 += theorem.cost;
        share.1.push(theorem);
    }
    shares.into_iter().map(|share| share.1).collect()
}

/// What the checker refused: a line has `error:` and mostly the declaration's
/// name in backquotes, and indented lines that follow say more.
fn failures(said: &str) -> Vec<Failure> {
    let mut failures: Vec<Failure> = Vec::new();
    let mut inside = false;
    for line in said.lines() {
        if let Some((_, rest)) = line.split_once(": error: ") {
            let quoted = rest.strip_prefix('`').and_then(|rest| rest.split_once("`: "));
            let (name, message) = quoted.unwrap_or(("rt", line));
            failures.push(Failure { name: name.into(), message: message.into() });
            inside = true;
        } else if inside && line.starts_with("  ") {
            let last = failures.last_mut().expect("an error before its further lines");
            last.message += &format!("\n{line}");
        } else {
            inside = false;
        }
    }
    failures
}

#[cfg(test)]
mod tests {
    use super::failures;

    #[test]
    fn refused_theorems_are_found() {
        let said = "== compared0\n\
                    ./proofs/Lists0.antt:52:6: error: `list-2`: the types differ\n  here\n\
                    ./proofs/Lists0.antt:60:6: error: `list-4`: stopped at the step limit\n\
                    ./proofs/Lists0.antt:62:6: error: `list-5`: deep recursion\n  \
                    (not a judgement about the input)\n\
                    logic=not-proved\n  not this\n";
        let failures = failures(said);
        let seen =
            failures.iter().map(|it| (it.name.as_str(), it.message.as_str(), it.is_difference()));
        let wanted = [
            ("list-2", "the types differ\n  here", true),
            ("list-4", "stopped at the step limit", false),
            ("list-5", "deep recursion\n  (not a judgement about the input)", false),
        ];
        assert!(seen.eq(wanted));
    }
}
