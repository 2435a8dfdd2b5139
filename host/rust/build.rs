//! Finds libtilesorrel.a for the linker, or makes it: the file that TILESORREL_ARCHIVE names; else the clone's own,
//! target/staticlib/libtilesorrel.a; else what `tools/make archive` makes there. An archive that is there is taken as it
//! is, also where the code is newer: `tools/make archive` makes it anew, and so does host/run.

use std::env;
use std::fs;
use std::path::{Path, PathBuf};
use std::process::{exit, Command};

const ARCHIVE: &str = "libtilesorrel.a";

/// Ends the build, and says what to do.
fn failed(what: &str) -> ! {
    eprintln!("tilesorrel: {what}.");
    eprintln!("Make the archive with 'tools/make archive' in the clone of Tilesorrel (docs/host.md), or name a");
    eprintln!("file that was made so: TILESORREL_ARCHIVE=/path/of/{ARCHIVE}");
    exit(1)
}

/// A directory that cargo names.
fn directory(variable: &str) -> PathBuf {
    env::var_os(variable).map(PathBuf::from).unwrap_or_else(|| failed(&format!("cargo has not set {variable}")))
}

/// Proves the library and makes the archive, which takes some minutes the first time.
fn make(clone: &Path) {
    if !clone.join("crates").join("tilesorrel").is_dir() {
        failed("there is no archive, and the package does not stand in a clone that could make it");
    }
    match Command::new(clone.join("tools").join("make")).arg("archive").status() {
        Ok(status) if status.success() => {}
        Ok(_) => failed("'tools/make archive' failed"),
        Err(error) => failed(&format!("there is no archive, and tools/make could not be run to make it: {error}")),
    }
}

/// The archive of the clone that the package stands in.
fn of_clone() -> PathBuf {
    let clone = directory("CARGO_MANIFEST_DIR").join("..").join("..");
    let archive = clone.join("target").join("staticlib").join(ARCHIVE);
    if !archive.is_file() {
        make(&clone);
    }
    archive
}

/// The linker looks for the archive by its name, so that a copy is made that has it, whatever the file is called.
fn main() {
    let archive = env::var_os("TILESORREL_ARCHIVE").map(PathBuf::from).unwrap_or_else(of_clone);
    let out = directory("OUT_DIR");
    println!("cargo:rerun-if-env-changed=TILESORREL_ARCHIVE");
    println!("cargo:rerun-if-changed={}", archive.display());
    if let Err(error) = fs::copy(&archive, out.join(ARCHIVE)) {
        failed(&format!("{} could not be copied: {error}", archive.display()));
    }
    println!("cargo:rustc-link-search=native={}", out.display());
}
