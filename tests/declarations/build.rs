//! Writes the checks of bindings/rust, which tests/raw.rs includes, so that they are compiled against the crate itself.

// What the tests use alone is not used here.
#[allow(dead_code)]
#[path = "src/lib.rs"]
mod declarations;

use declarations::{root, Texts, FILES, GROUNDS, HEADER, RAW};
use std::env;
use std::fs;
use std::path::PathBuf;

fn main() {
    for name in FILES.into_iter().chain([GROUNDS, HEADER, RAW]) {
        println!("cargo:rerun-if-changed={}", root().join(name).display());
    }
    let checks = Texts::of_repository().raw_checks();
    let checks = checks.unwrap_or_else(|wrong| panic!("{RAW}: {wrong}"));
    let folder = PathBuf::from(env::var_os("OUT_DIR").expect("cargo names a folder"));
    fs::write(folder.join("raw_checks.rs"), checks).expect("the folder can be written");
}
