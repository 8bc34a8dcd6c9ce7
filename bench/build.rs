//! Links the static library with the proved entry, and the same in plain C.

use std::env;
use std::path::{Path, PathBuf};
use std::process::Command;

const WARNINGS: [&str; 3] = ["-Wall", "-Wextra", "-Werror"];

fn run(command: &mut Command) {
    let status = command.status().expect("the program is installed");
    assert!(status.success(), "{command:?} failed");
}

// Compiles c/NAME.c.
fn compile(name: &str, out: &Path) -> PathBuf {
    let source = format!("c/{name}.c");
    let object = out.join(format!("{name}.o"));
    println!("cargo:rerun-if-changed={source}");
    let mut gcc = Command::new("gcc");
    run(gcc
        .args(WARNINGS)
        .args(["-O2", "-c", &source, "-o"])
        .arg(&object));
    object
}

fn main() {
    let out = PathBuf::from(env::var("OUT_DIR").expect("cargo sets this"));
    let manifest = PathBuf::from(env::var("CARGO_MANIFEST_DIR").expect("cargo sets this"));
    let host = manifest.join("../crates/host/out");
    let objects = [compile("table", &out), compile("admit", &out)];
    run(Command::new("ar")
        .arg("rcs")
        .arg(out.join("libplain.a"))
        .args(objects));
    println!("cargo:rerun-if-changed=c/table.h");
    println!(
        "cargo:rerun-if-changed={}",
        host.join("libhost.a").display()
    );
    println!("cargo:rustc-link-search=native={}", out.display());
    println!("cargo:rustc-link-search=native={}", host.display());
    println!("cargo:rustc-link-lib=static=plain");
    println!("cargo:rustc-link-lib=static=host");
}
