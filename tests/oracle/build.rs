//! Puts the kernel's two files where the library can compile them. Each is
//! copied byte for byte, and items of ours that look at its private parts
//! (src/peek_frame.rs, src/peek_tracker.rs) follow after its last line. With the
//! feature `lock` its spinlock.rs and once.rs come too, with nothing of ours.

use std::{
    env, fs, io,
    path::{Path, PathBuf},
};

/// Where the kernel stands below the sources' directory.
const DIRECTORY: &str = "src/kernel/src";

fn main() {
    println!("cargo::rerun-if-env-changed=JILAKKOR_SOURCES");
    // A relative path counts from the repository's root.
    let sources = env::var("JILAKKOR_SOURCES").unwrap_or("../shared/docs/src".into());
    if let Err(error) = write_modules(&sources) {
        println!("cargo::error=the kernel's files are not in {sources}/{DIRECTORY}: {error}");
        println!("cargo::error=JILAKKOR_SOURCES names the directory that holds them");
    }
}

fn write_modules(sources: &str) -> io::Result<()> {
    // This package and bench/locked both stand two directories below the root.
    let root = Path::new(&env::var("CARGO_MANIFEST_DIR").unwrap()).join("../..");
    let kernel = root.join(sources).join(DIRECTORY);
    let mut modules = String::new();
    for name in ["frame", "tracker"] {
        let text = read(&kernel.join(format!("memory/{name}.rs")))?;
        let ours = read(&root.join(format!("tests/oracle/src/peek_{name}.rs")))?;
        modules += &module(name, text + "\n" + &ours)?;
    }
    fs::write(out("modules.rs"), modules)?;
    if env::var("CARGO_FEATURE_LOCK").is_ok() {
        let mut locks = String::new();
        for name in ["once", "spinlock"] {
            locks += &module(name, read(&kernel.join(format!("{name}.rs")))?)?;
        }
        fs::write(out("locks.rs"), locks)?;
    }
    Ok(())
}

/// The declaration of a module with this text. `include!` would refuse the `//!`
/// lines that frame.rs opens with, so each file becomes a module by its path.
fn module(name: &str, text: String) -> io::Result<String> {
    let target = out(&format!("{name}.rs"));
    fs::write(&target, text)?;
    Ok(format!("#[allow(warnings)]\n#[path = {target:?}]\npub mod {name};\n"))
}

fn out(file: &str) -> PathBuf {
    Path::new(&env::var("OUT_DIR").unwrap()).join(file)
}

fn read(path: &Path) -> io::Result<String> {
    println!("cargo::rerun-if-changed={}", path.display());
    fs::read_to_string(path)
}
