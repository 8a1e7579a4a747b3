//! Links the product's static library, and the kit's C code below it.
//!
//! Without the library the package compiles, and `cargo test --lib` runs, which calls nothing of the
//! product; the two programs do not link.

use std::env;
use std::path::{Path, PathBuf};

fn main() {
    println!("cargo:rerun-if-env-changed=EXCHANGE_LIBRARY_FOLDER");
    println!("cargo:rerun-if-env-changed=RATTLE_HOME");
    let package = PathBuf::from(env::var_os("CARGO_MANIFEST_DIR").expect("cargo sets it"));
    let repository = package
        .parent()
        .expect("the package is a folder of the repository");
    let product = env::var_os("EXCHANGE_LIBRARY_FOLDER")
        .map_or_else(|| repository.join("crates/c_interface/out"), PathBuf::from);
    let kit =
        env::var_os("RATTLE_HOME").map_or_else(|| PathBuf::from("/opt/rattle"), PathBuf::from);
    link(&product, "c_interface");
    // After the product, which uses it to find memory.
    link(&kit.join("c"), "libc_c");
}

fn link(folder: &Path, name: &str) {
    let archive = folder.join(format!("lib{name}.a"));
    println!("cargo:rerun-if-changed={}", archive.display());
    if archive.exists() {
        println!("cargo:rustc-link-search=native={}", folder.display());
        println!("cargo:rustc-link-lib=static={name}");
    } else {
        println!(
            "cargo:warning={} is missing; compare/build.sh makes it",
            archive.display()
        );
    }
}
