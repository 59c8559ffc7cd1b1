//! Where tools/build leaves a static library, for the build scripts that cargo runs: here, in agreement/ and in
//! bench/.

use std::env;
use std::path::{Path, PathBuf};
use std::process::exit;

/// The library of a crate: target/staticlib/libNAME.a, or the file that a variable names, from the
/// repository's root. Where it is missing the build ends with what makes it.
pub fn of(name: &str, variable: &str) -> PathBuf {
    let package = env::var("CARGO_MANIFEST_DIR").expect("cargo names the package's folder");
    let file = env::var(variable).unwrap_or(format!("target/staticlib/lib{name}.a"));
    let path = Path::new(&package).join("..").join(&file);
    println!("cargo::rerun-if-env-changed={variable}");
    println!("cargo::rerun-if-changed={}", path.display());
    path.canonicalize().unwrap_or_else(|_| {
        println!("cargo::error={file} is missing; 'tools/build {name}' builds it");
        exit(0);
    })
}
