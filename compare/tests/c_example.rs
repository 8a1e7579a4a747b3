//! The example in C is built against the product's library and run: it ends with status 0 only if every
//! answer is that of the worked example.

use std::env;
use std::path::{Path, PathBuf};
use std::process::Command;

#[test]
fn the_example_in_c_runs() {
    let repository = Path::new(env!("CARGO_MANIFEST_DIR")).join("..");
    let product = env::var_os("EXCHANGE_LIBRARY_FOLDER")
        .map_or_else(|| repository.join("crates/c_interface/out"), PathBuf::from);
    let kit =
        env::var_os("RATTLE_HOME").map_or_else(|| PathBuf::from("/opt/rattle"), PathBuf::from);
    let program = Path::new(env!("CARGO_TARGET_TMPDIR")).join("c_example");
    let built = Command::new("cc")
        .args([
            "-std=c11",
            "-Wall",
            "-Wextra",
            "-Wpedantic",
            "-Werror",
            "-I",
        ])
        .arg(repository.join("c"))
        .arg(repository.join("c/example.c"))
        .arg(product.join("libc_interface.a"))
        .arg(kit.join("c/liblibc_c.a"))
        .arg("-o")
        .arg(&program)
        .status()
        .expect("a C compiler is there");
    assert!(built.success(), "the example is not built");
    let run = Command::new(&program).output().expect("the example starts");
    assert!(
        run.status.success(),
        "{}",
        String::from_utf8_lossy(&run.stdout)
    );
}
