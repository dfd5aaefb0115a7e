//! Links the archive that `tools/archive store` writes: libstore.a in the directory
//! that JILAKKOR_LIB names, as a whole path, or else in target/staticlib of the
//! repository.

use std::env;

fn main() {
    println!("cargo::rerun-if-env-changed=JILAKKOR_LIB");
    let package = env::var("CARGO_MANIFEST_DIR").unwrap_or_default();
    let named = env::var("JILAKKOR_LIB").ok();
    let directory = named.unwrap_or(format!("{package}/../target/staticlib"));
    println!("cargo::rustc-link-search=native={directory}");
    println!("cargo::rustc-link-lib=static=store");
    println!("cargo::rerun-if-changed={directory}/libstore.a");
}
