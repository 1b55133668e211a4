//! Compares the C header and the Rust declarations of the public calls with the Rattle source that exports them.
//! Neither is covered by the proof; both are written by hand. From the source alone this crate computes how every answer
//! is laid out and writes checks that a compiler refuses if a declaration differs; a scan finds declarations that the
//! source does not have.

pub mod c;
pub mod grounds;
pub mod header;
pub mod layout;
pub mod rattle;
pub mod rust;
pub mod tokens;

use grounds::Grounds;
use header::{values, Header};
use rattle::Source;
use rust::Raw;
use std::collections::BTreeSet;
use std::fmt::Debug;
use std::fs;
use std::path::{Path, PathBuf};
use std::process::Command;

/// The public calls, and their exports to C.
pub const CALLS: &str = "crates/kistrovu/src/lib.rt";
pub const EXPORTS: &str = "crates/kistrovu_c/src/lib.rt";

/// The files that export something, or hold what an exported struct is made of, or a limit, in the order in which they
/// rest on each other.
pub const FILES: [&str; 9] = [
    "crates/pixel/src/lib.rt",
    "crates/verdict/src/closeness.rt",
    "crates/verdict/src/lib.rt",
    "crates/palette/src/lib.rt",
    "crates/swatch/src/lib.rt",
    "crates/joinlog/src/lib.rt",
    CALLS,
    EXPORTS,
    "crates/card/src/main.rt",
];

/// The words of the grounds, their definitions, and the declarations that are compared with all of these.
pub const METHOD: &str = "docs/METHOD.md";
pub const GROUNDS: &str = "crates/grounds/specs/Grounds.antt";
pub const HEADER: &str = "include/kistrovu.h";
pub const RAW: &str = "bindings/rust/src/raw.rs";

/// The texts of these files.
#[derive(Clone)]
pub struct Texts {
    pub rattle: Vec<(&'static str, String)>,
    pub grounds: String,
    pub header: String,
    pub raw: String,
}

pub fn root() -> PathBuf {
    Path::new(env!("CARGO_MANIFEST_DIR")).join("../..")
}

pub fn read(name: &str) -> String {
    let file = root().join(name);
    fs::read_to_string(&file).unwrap_or_else(|wrong| panic!("{}: {wrong}", file.display()))
}

impl Texts {
    pub fn of_repository() -> Self {
        Texts {
            rattle: FILES.map(|name| (name, read(name))).to_vec(),
            grounds: read(METHOD) + &read(GROUNDS),
            header: read(HEADER),
            raw: read(RAW),
        }
    }

    pub fn source(&self) -> Result<Source, String> {
        Source::read(
            self.rattle
                .iter()
                .map(|(name, text)| (*name, text.as_str())),
        )
    }

    /// Compiles the checks in an empty folder and scans the header; says what is wrong.
    pub fn check_header(&self, folder: &Path) -> Result<(), String> {
        let source = self.source()?;
        let values = values(&source)?;
        write(folder, "kistrovu.h", &self.header);
        write(folder, "checks.c", &c::checks(&source, &values));
        write(folder, "checks.cc", &c::linkage_checks(&source));
        compile(folder, "gcc -std=c11 -Wstrict-prototypes", "checks.c")?;
        if is_installed("g++") {
            compile(folder, "g++ -std=c++11", "checks.cc")?;
        }
        let grounds = Grounds::read(&self.grounds)?;
        grounds.are_said(&source, &self.header)?;
        Header::read(&self.header)?.agrees(&source, &values, &grounds)
    }

    /// The checks of the Rust declarations, with the constants that are declared there.
    pub fn raw_checks(&self) -> Result<String, String> {
        let source = self.source()?;
        let declared = Raw::read(&self.raw)?.values(&values(&source)?)?;
        Ok(rust::checks(&source, &declared))
    }

    /// Does with the Rust declarations what `check_header` does with the header.
    pub fn check_raw(&self, folder: &Path) -> Result<(), String> {
        let source = self.source()?;
        let checks = self.raw_checks()?;
        write(folder, "raw.rs", &self.raw);
        write(folder, "checks.rs", &format!("pub mod raw;\n{checks}"));
        run(
            folder,
            "rustc --edition=2021 --crate-type=lib --emit=metadata checks.rs",
        )?;
        Grounds::read(&self.grounds)?.are_said(&source, &self.raw)?;
        Raw::read(&self.raw)?.agrees(&source)
    }
}

/// The same things, whatever the order; none stands twice.
fn same<T: Ord + Clone + Debug>(
    what: &str,
    found: &[T],
    expected: impl Iterator<Item = T>,
) -> Result<(), String> {
    let expected: BTreeSet<T> = expected.collect();
    let set: BTreeSet<T> = found.iter().cloned().collect();
    if set.len() < found.len() {
        return Err(format!("{what}: one is declared twice"));
    }
    let differ: Vec<&T> = set.symmetric_difference(&expected).collect();
    match differ.is_empty() {
        true => Ok(()),
        false => Err(format!(
            "{what}: only in the declarations or the source: {differ:?}"
        )),
    }
}

fn write(folder: &Path, name: &str, text: &str) {
    let file = folder.join(name);
    fs::write(&file, text).unwrap_or_else(|wrong| panic!("{}: {wrong}", file.display()));
}

/// gcc is needed; g++ is used where there is one.
pub fn is_installed(program: &str) -> bool {
    Command::new(program).arg("--version").output().is_ok()
}

/// Compiles a file in C or C++ with nothing let pass.
fn compile(folder: &Path, compiler: &str, file: &str) -> Result<(), String> {
    let words = "-Wall -Wextra -Werror -pedantic -c -o checks.o";
    run(folder, &format!("{compiler} {words} {file}"))
}

/// Runs a command in a folder; what it complains of is the error.
fn run(folder: &Path, command: &str) -> Result<(), String> {
    let mut words = command.split(' ');
    let program = words.next().unwrap_or_default();
    let output = Command::new(program)
        .args(words)
        .current_dir(folder)
        .output()
        .unwrap_or_else(|wrong| panic!("{program}: {wrong}"));
    match output.status.success() {
        true => Ok(()),
        false => Err(String::from_utf8_lossy(&output.stderr).into_owned()),
    }
}

/// The text with one place of it altered. The place must be there, once, or the edit would try nothing.
pub fn edited(text: &str, from: &str, to: &str) -> String {
    assert_eq!(text.matches(from).count(), 1, "places with `{from}`");
    text.replace(from, to)
}
