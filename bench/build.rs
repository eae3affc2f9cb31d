//! Links the second build of the library, which `run` writes to the repository's `target/native`, where it is asked for.

use std::env;
use std::path::Path;

fn main() {
    if env::var_os("CARGO_FEATURE_NATIVE").is_none() {
        return;
    }
    let here = env::var_os("CARGO_MANIFEST_DIR").expect("cargo names the crate's directory");
    let directory = Path::new(&here).join("../target/native");
    println!("cargo::rerun-if-changed={}", directory.join("libstormhlaw_native.a").display());
    println!("cargo::rustc-link-search=native={}", directory.display());
    println!("cargo::rustc-link-lib=static=stormhlaw_native");
}
