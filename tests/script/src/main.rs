//! Holds the run of the script program, linked through C, against an
//! implementation of its own (model/) on scripts of every sort and, with the
//! feature oracle, both against the kernel's Rust on common ground. The first
//! script that differs is made as short as it goes and printed, and the exit
//! status is 1; so it is where a run tried too little.

mod commands;
mod linked;
mod options;

use std::process::ExitCode;

use options::{Command, Options, USAGE};

fn main() -> ExitCode {
    let Some(options) = Options::read(std::env::args().skip(1)) else {
        eprintln!("{USAGE}");
        return ExitCode::from(2);
    };
    let done = match &options.command {
        Command::Model => commands::model(&options),
        Command::Replay(file) => commands::replay(file),
        Command::Example(name) => commands::example(name),
        #[cfg(feature = "oracle")]
        Command::Oracle => commands::oracle(&options),
        #[cfg(feature = "oracle")]
        Command::Vectors => commands::vectors(&options),
        #[cfg(not(feature = "oracle"))]
        _ => Err("this was built without the feature oracle".into()),
    };
    match done {
        Ok(said) => {
            print!("{said}");
            ExitCode::SUCCESS
        }
        Err(failed) => {
            println!("script: FAILED: {failed}");
            ExitCode::FAILURE
        }
    }
}
