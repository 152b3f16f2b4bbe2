//! Compiles the straightforward C and links it.

use std::env;
use std::path::PathBuf;
use std::process::Command;

fn main() {
    println!("cargo:rerun-if-changed=straightforward.c");
    let out = PathBuf::from(env::var_os("OUT_DIR").expect("cargo sets the output directory"));
    let (object, archive) = (
        out.join("straightforward.o"),
        out.join("libstraightforward.a"),
    );
    run(Command::new("gcc")
        .args(["-O3", "-std=c11", "-Wall", "-Wextra", "-Werror"])
        .args(["-c", "straightforward.c", "-o"])
        .arg(&object));
    run(Command::new("ar").arg("rcs").arg(&archive).arg(&object));
    println!("cargo:rustc-link-search=native={}", out.display());
    println!("cargo:rustc-link-lib=static=straightforward");
}

fn run(command: &mut Command) {
    let status = command.status().expect("the compiler is installed");
    assert!(status.success(), "{command:?} failed");
}
