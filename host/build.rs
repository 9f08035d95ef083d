//! Says where the archive is: in THAWCOPPER_LIB_DIR, or where `tools/build.sh archive` writes it.

use std::env;
use std::path::PathBuf;

fn main() {
    println!("cargo:rerun-if-env-changed=THAWCOPPER_LIB_DIR");
    let dir = match env::var_os("THAWCOPPER_LIB_DIR") {
        Some(dir) => PathBuf::from(dir),
        None => PathBuf::from(env::var_os("CARGO_MANIFEST_DIR").unwrap()).join("../target/staticlib"),
    };
    let archive = dir.join("libthawcopper.a");
    println!("cargo:rerun-if-changed={}", archive.display());
    if !archive.exists() {
        panic!(
            "{} is not there: run `bash tools/build.sh archive` in the root of the repository, or set THAWCOPPER_LIB_DIR",
            archive.display()
        );
    }
    println!("cargo:rustc-link-search=native={}", dir.display());
    println!("cargo:rustc-link-lib=static=thawcopper");
}
