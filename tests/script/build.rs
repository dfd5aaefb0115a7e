//! Where the archive stands that `tools/archive script_c` writes. The program names it
//! (linked.rs), not the library.

use std::env;

fn main() {
    let package = env::var("CARGO_MANIFEST_DIR").unwrap();
    let archives = format!("{package}/../../target/staticlib");
    println!("cargo::rustc-link-search=native={archives}");
    println!("cargo::rerun-if-changed={archives}/libscript.a");
}
