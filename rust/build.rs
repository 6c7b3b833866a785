//! Finds libgiophantus.a: in the directory that GIOPHANTUS_LIB_DIR names, else in ../target/staticlib, where
//! `tests/archive` writes it.

use std::env;
use std::path::{Path, PathBuf};
use std::process::exit;

const ARCHIVE: &str = "libgiophantus.a";

fn main() {
    println!("cargo:rerun-if-changed=build.rs");
    println!("cargo:rerun-if-env-changed=GIOPHANTUS_LIB_DIR");

    let target = env::var("TARGET").unwrap_or_default();
    if !(target.starts_with("x86_64-") && target.contains("-linux-")) {
        stop(&format!(
            "{ARCHIVE} is made for x86-64 Linux and cannot be linked for {target}: build for x86_64-unknown-linux-gnu"
        ));
    }

    let directory = directory();
    let archive = directory.join(ARCHIVE);
    println!("cargo:rerun-if-changed={}", archive.display());
    if !archive.is_file() {
        stop(&format!(
            "{} is missing: run `tests/archive` at the repository's root, or set GIOPHANTUS_LIB_DIR to the directory \
             that holds it",
            archive.display()
        ));
    }
    println!("cargo:rustc-link-search=native={}", directory.display());
    println!("cargo:rustc-link-lib=static=giophantus");
}

/// The directory that should hold the archive, as an absolute path.
fn directory() -> PathBuf {
    let given = match env::var_os("GIOPHANTUS_LIB_DIR") {
        Some(given) if !given.is_empty() => PathBuf::from(given),
        _ => {
            let package = env::var_os("CARGO_MANIFEST_DIR").unwrap_or_default();
            Path::new(&package).join("../target/staticlib")
        }
    };
    given.canonicalize().unwrap_or(given)
}

/// Ends the build with one plain line.
fn stop(why: &str) -> ! {
    eprintln!("giophantus: {why}");
    exit(1);
}
