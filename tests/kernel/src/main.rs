//! Calls the library that a kernel links, one exported function at a time: on small
//! stores with answers written by hand; on random scripts against the model of
//! tests/script and, with the feature oracle, against the kernel's Rust; in both
//! forms of the counters side by side. And compares its declarations. The first
//! difference is printed, and the exit status is 1.

mod both;
mod calls;
mod commands;
mod declared;
#[path = "../../../rust/src/ffi.rs"]
mod ffi;
#[cfg(feature = "oracle")]
mod kept;
mod lot;
mod options;
mod play;
mod safe;
mod state;

use std::process::ExitCode;

use options::{Command, Options, USAGE};

fn main() -> ExitCode {
    let Some(options) = Options::read(std::env::args().skip(1)) else {
        eprintln!("{USAGE}");
        return ExitCode::from(2);
    };
    let done = match &options.command {
        Command::Calls => calls::all(),
        Command::Declared(root) => declared::all(root),
        Command::Model => commands::model(&options),
        Command::Both => commands::both(&options),
        #[cfg(feature = "oracle")]
        Command::Oracle => commands::oracle(&options),
        #[cfg(not(feature = "oracle"))]
        Command::Oracle => Err("this was built without the feature oracle".into()),
    };
    match done {
        Ok(said) => {
            println!("kernel: {said}");
            ExitCode::SUCCESS
        }
        Err(failed) => {
            println!("kernel: FAILED: {failed}");
            ExitCode::FAILURE
        }
    }
}
