//! Finds the static library: in the directory that STORMHLAW_LIB_DIR names, else in the repository's `target/lib`, where
//! `bindings/library` writes it, else where pkg-config has it.

#![forbid(unsafe_code)]

use std::path::{Path, PathBuf};
use std::process::{exit, Command};
use std::{env, fs};

/// The file that is linked.
const LIBRARY: &str = "libstormhlaw.a";

fn main() {
    println!("cargo:rerun-if-env-changed=STORMHLAW_LIB_DIR");
    println!("cargo:rerun-if-env-changed=PKG_CONFIG_PATH");
    let places = places();
    let Found { directory, library } = found(&places).unwrap_or_else(|| none(&places));
    println!("cargo:rerun-if-changed={}", library.display());
    println!("cargo:rustc-link-search=native={}", directory.display());
    println!("cargo:rustc-link-lib=static=stormhlaw");
}

/// A directory and the library in it, by their full names.
struct Found {
    directory: PathBuf,
    library: PathBuf,
}

/// The first of the directories that has the library.
fn found(places: &[PathBuf]) -> Option<Found> {
    let directory = places.iter().find(|place| place.join(LIBRARY).is_file())?;
    let directory = fs::canonicalize(directory).ok()?;
    Some(Found { library: directory.join(LIBRARY), directory })
}

/// Where to look. A directory that is named by hand is the only one.
fn places() -> Vec<PathBuf> {
    if let Some(named) = env::var_os("STORMHLAW_LIB_DIR") {
        return vec![PathBuf::from(named)];
    }
    let here = env::var_os("CARGO_MANIFEST_DIR").expect("cargo names the crate's directory");
    let built = Path::new(&here).join("../../target/lib");
    vec![built].into_iter().chain(installed()).collect()
}

/// The directory that pkg-config tells of, if there is pkg-config and it knows the library.
fn installed() -> Option<PathBuf> {
    let said = Command::new("pkg-config").args(["--variable=libdir", "stormhlaw"]).output().ok()?;
    let directory = String::from_utf8(said.stdout).ok()?;
    let directory = directory.trim();
    (said.status.success() && !directory.is_empty()).then(|| PathBuf::from(directory))
}

/// Ends the build with what to do.
fn none(places: &[PathBuf]) -> ! {
    eprintln!("There is no {LIBRARY}. These directories were looked in:");
    for place in places {
        eprintln!("  {}", place.display());
    }
    eprintln!("Run bindings/library in the repository, install the library where pkg-config finds it,");
    eprintln!("or name its directory, by its full path, in STORMHLAW_LIB_DIR.");
    exit(1)
}
