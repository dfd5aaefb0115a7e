//! Times the leaf crates of the store: records and lists against the same steps
//! in plain Rust, a grant that splits a frame against the kernel's own, and a
//! region's layout against a plain fill of its records; and the audit against
//! the same audit in plain Rust; and whole calls against the kernel's own, and
//! against memset and memmove; and contents by themselves, and the run of a script.
//! README.md says what the figures mean.

mod audit;
mod calls;
mod clock;
mod contents;
mod kernel;
mod original;
mod plain;
mod plain_audit;
mod rattle;
mod records;
mod regions;
mod script;
mod stack;
mod whole;

fn main() {
    // The name of one part runs it alone.
    let part = std::env::args().nth(1);
    let runs = |name: &str| part.as_ref().is_none_or(|part| part == name);
    // The kernel boots once in a process, so that these parts are never run with another.
    match part.as_deref() {
        Some("script") => return script::run(),
        Some("kernel") => {
            let pages = std::env::args().nth(2).and_then(|pages| pages.parse().ok());
            original::set_up();
            return kernel::run(pages.unwrap_or(16));
        }
        _ => (),
    }
    original::set_up();
    if runs("leaves") {
        leaves();
    }
    if runs("audit") {
        audit::run();
    }
    if runs("calls") {
        calls::run();
        contents::run();
        stack::run();
    }
}

fn leaves() {
    records::heading();
    for pages in [16, 4096, 262_144] {
        records::run(pages);
    }
    regions::heading();
    regions::split("2 MiB", 0, 4000);
    regions::split("1 GiB", 1, 3000);
    regions::layout();
}
