//! Links libprunepocket.a from PRUNEPOCKET_LIB, or from target/staticlib of
//! the repository where that is not set.

use std::env;
use std::path::{Path, PathBuf};

fn main() {
    println!("cargo:rerun-if-env-changed=PRUNEPOCKET_LIB");
    let manifest = env::var("CARGO_MANIFEST_DIR").expect("cargo sets CARGO_MANIFEST_DIR");
    let folder = match env::var("PRUNEPOCKET_LIB") {
        Ok(folder) => PathBuf::from(folder),
        Err(_) => Path::new(&manifest).join("../target/staticlib"),
    };
    let archive = folder.join("libprunepocket.a");
    println!("cargo:rerun-if-changed={}", archive.display());
    if !archive.exists() {
        println!(
            "cargo:warning={} does not exist; build it first, or set PRUNEPOCKET_LIB to its folder",
            archive.display()
        );
    }
    println!("cargo:rustc-link-search=native={}", folder.display());
    println!("cargo:rustc-link-lib=static=prunepocket");
}
