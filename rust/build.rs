//! Finds the proved archive, or has `rt` prove and build it, and tells cargo to link it.

use std::env;
use std::io;
use std::path::{Path, PathBuf};
use std::process::Command;

const ARCHIVE: &str = "libpagefile.a";

fn main() {
    println!("cargo:rerun-if-env-changed=PAGEFILE_LIB_DIR");
    match folder() {
        Ok(folder) => {
            let archive = folder.join(ARCHIVE);
            println!("cargo:rerun-if-changed={}", archive.display());
            println!("cargo:rustc-link-search=native={}", folder.display());
            println!("cargo:rustc-link-lib=static=pagefile");
        }
        Err(message) => println!("cargo::error={message}"),
    }
}

/// The folder with the archive: the one named by the caller, or the repository's own.
fn folder() -> Result<PathBuf, String> {
    if let Some(named) = env::var_os("PAGEFILE_LIB_DIR") {
        let named = PathBuf::from(named);
        if named.join(ARCHIVE).is_file() {
            return Ok(named);
        }
        return Err(format!(
            "PAGEFILE_LIB_DIR is {}, which has no {ARCHIVE}",
            named.display()
        ));
    }
    let root = Path::new(env!("CARGO_MANIFEST_DIR")).join("..");
    let built = root.join("target").join("staticlib");
    if !built.join(ARCHIVE).is_file() {
        prove(&root)?;
    }
    Ok(built)
}

/// Proves the library and writes its archive.
fn prove(root: &Path) -> Result<(), String> {
    let run = Command::new(root.join("library"))
        // cargo reads this script's own output
        .stdout(io::stderr())
        .status();
    match run {
        Ok(status) if status.success() => Ok(()),
        Ok(status) => Err(format!("`./library` failed ({status}): put the Rattle kit's `rt` on the path, and run it in the repository's root to see why")),
        Err(error) => Err(format!("{ARCHIVE} is not built and `./library` cannot be run ({error}): run it in the repository's root, or name the archive's folder in PAGEFILE_LIB_DIR")),
    }
}
