//! Finds the proved library's archive and links it.

use std::env;
use std::path::{Path, PathBuf};

fn main() {
    let manifest = env::var("CARGO_MANIFEST_DIR").expect("cargo sets the manifest directory");
    let directory = env::var_os("PAGEFILE_LIB_DIR").map_or_else(
        || Path::new(&manifest).join("../../target/staticlib"),
        PathBuf::from,
    );
    let archive = directory.join("libpagefile.a");
    println!("cargo:rerun-if-env-changed=PAGEFILE_LIB_DIR");
    println!("cargo:rerun-if-changed={}", archive.display());
    if !archive.exists() {
        eprintln!("no libpagefile.a: run `./library` at the repository's root");
        std::process::exit(1);
    }
    println!("cargo:rustc-link-search=native={}", directory.display());
    println!("cargo:rustc-link-lib=static=pagefile");
}
