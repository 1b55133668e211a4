//! Links the engine's static library from the folder KISTROVU_LIB, or from the repository's target/staticlib.

use std::env;
use std::path::{Path, PathBuf};
use std::process::exit;

fn main() {
    let here = env::var("CARGO_MANIFEST_DIR").expect("cargo says where the package is");
    let folder = env::var("KISTROVU_LIB")
        .map(PathBuf::from)
        .unwrap_or_else(|_| Path::new(&here).join("../../target/staticlib"));
    let library = folder.join("libkistrovu.a");
    println!("cargo:rerun-if-env-changed=KISTROVU_LIB");
    println!("cargo:rerun-if-changed={}", library.display());
    if !library.is_file() {
        eprintln!("{} is missing.", library.display());
        eprintln!(
            "Run `tools/library` at the repository's root, or set KISTROVU_LIB to its folder."
        );
        exit(1);
    }
    println!("cargo:rustc-link-search=native={}", folder.display());
    println!("cargo:rustc-link-lib=static=kistrovu");
}
