//! Finds the proved static library and has it linked.
//!
//! `.ci/archive host_calls` writes it to target/staticlib/libhost_calls.a of the
//! repository. The environment variable DARTHOG_LIBRARY_FOLDER names another
//! folder.

use std::env;
use std::path::{Path, PathBuf};

const VARIABLE: &str = "DARTHOG_LIBRARY_FOLDER";

fn main() {
    println!("cargo:rerun-if-env-changed={VARIABLE}");
    let folder = match env::var_os(VARIABLE) {
        Some(named) => PathBuf::from(named),
        None => Path::new(env!("CARGO_MANIFEST_DIR")).join("../target/staticlib"),
    };
    let archive = folder.join("libhost_calls.a");
    println!("cargo:rerun-if-changed={}", archive.display());
    if !archive.is_file() {
        eprintln!(
            "{} is not there: run `.ci/archive host_calls` in the repository, or name the folder that has libhost_calls.a by {VARIABLE}",
            archive.display()
        );
        std::process::exit(1);
    }
    // tests/sheets.rs links this one; a host that runs no sheet needs it not
    let sheets = folder.join("libhost_sheet.a");
    if sheets.is_file() {
        println!("cargo:rerun-if-changed={}", sheets.display());
    }
    println!("cargo:rustc-link-search=native={}", folder.display());
    println!("cargo:rustc-link-lib=static=host_calls");
}
