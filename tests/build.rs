//! Links the static library that holds the entry for a host in C.

use std::env;
use std::path::PathBuf;

// A relative HOST_LIB_DIR starts from the manifest's folder.
fn main() {
    let manifest = PathBuf::from(env::var("CARGO_MANIFEST_DIR").expect("cargo sets this"));
    let named = env::var("HOST_LIB_DIR").unwrap_or_else(|_| "../crates/host/out".to_string());
    let folder = manifest.join(named);
    println!("cargo:rerun-if-env-changed=HOST_LIB_DIR");
    println!(
        "cargo:rerun-if-changed={}",
        folder.join("libhost.a").display()
    );
    println!("cargo:rustc-link-search=native={}", folder.display());
    println!("cargo:rustc-link-lib=static=host");
}
