//! Tells the linker where libthymeflask.a lies.

use std::env;
use std::path::PathBuf;

fn main() {
    let directory = match env::var_os("THYMEFLASK_LIB_DIR") {
        Some(given) => PathBuf::from(given),
        None => package_directory().join("../crates/thymeflask/out"),
    };
    let archive = directory.join("libthymeflask.a");
    if !archive.exists() {
        // Checking alone does without the archive, so this is no error yet.
        println!("cargo:warning={} is missing", archive.display());
    }
    println!("cargo:rerun-if-env-changed=THYMEFLASK_LIB_DIR");
    println!("cargo:rerun-if-changed={}", archive.display());
    println!("cargo:rustc-link-search=native={}", directory.display());
    println!("cargo:rustc-link-lib=static=thymeflask");
}

fn package_directory() -> PathBuf {
    let directory = env::var_os("CARGO_MANIFEST_DIR").expect("cargo names the package's directory");
    PathBuf::from(directory)
}
