//! Says where the static library lies: in GIOPHANTUS_LIB_DIR (an absolute path), or where `tests/archive`
//! writes it.

use std::env;
use std::path::{Path, PathBuf};

fn main() {
    let home = env::var("CARGO_MANIFEST_DIR").expect("cargo sets it");
    let directory = match env::var_os("GIOPHANTUS_LIB_DIR") {
        Some(directory) => PathBuf::from(directory),
        None => Path::new(&home).join("../../target/staticlib"),
    };
    println!("cargo:rerun-if-env-changed=GIOPHANTUS_LIB_DIR");
    println!(
        "cargo:rerun-if-changed={}",
        directory.join("libgiophantus.a").display()
    );
    println!("cargo:rustc-link-search=native={}", directory.display());
}
