//! Links the archives that `tools/archive` writes of leaves, drivers and script_c; the crate
//! jilakkor links that of store.

use std::env;

fn main() {
    let package = env::var("CARGO_MANIFEST_DIR").unwrap();
    let archives = format!("{package}/../target/staticlib");
    println!("cargo::rustc-link-search=native={archives}");
    for name in ["leaves", "drivers", "script"] {
        println!("cargo::rustc-link-lib=static={name}");
        println!("cargo::rerun-if-changed={archives}/lib{name}.a");
    }
}
