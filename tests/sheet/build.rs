//! Links the archive that `tools/archive store` writes.

use std::env;

fn main() {
    let package = env::var("CARGO_MANIFEST_DIR").unwrap();
    let archives = format!("{package}/../../target/staticlib");
    println!("cargo::rustc-link-search=native={archives}");
    println!("cargo::rustc-link-lib=static=store");
    println!("cargo::rerun-if-changed={archives}/libstore.a");
}
