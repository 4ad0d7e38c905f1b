//! Links the archive of the engine, `liblane.a`, as `.ci/archive` leaves it.
//!
//! It stands in `target/staticlib` of the repository, or in the folder that the environment
//! variable `LANE_LIB_DIR` names.

use std::env;
use std::path::{Path, PathBuf};
use std::process::exit;

fn main() {
    println!("cargo:rerun-if-changed=build.rs");
    println!("cargo:rerun-if-env-changed=LANE_LIB_DIR");
    let dir = env::var_os("LANE_LIB_DIR").map_or_else(default_dir, PathBuf::from);
    let archive = dir.join("liblane.a");
    println!("cargo:rerun-if-changed={}", archive.display());
    if !archive.is_file() {
        eprintln!(
            "error: no {}\n\
             Run `.ci/archive` at the root of the repository, \
             or set LANE_LIB_DIR to the folder (absolute) that holds liblane.a.",
            archive.display()
        );
        exit(1);
    }
    println!("cargo:rustc-link-search=native={}", dir.display());
    println!("cargo:rustc-link-lib=static=lane");
}

/// `target/staticlib` at the root of the repository.
fn default_dir() -> PathBuf {
    let manifest = env::var_os("CARGO_MANIFEST_DIR").unwrap_or_default();
    let root = Path::new(&manifest).ancestors().nth(2);
    root.map(|root| root.join("target/staticlib"))
        .unwrap_or_default()
}
