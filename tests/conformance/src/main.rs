//! Writes the conformance kit `tests/vectors` anew, with the answers of the engine and of the second implementation. In
//! `tests/`, after `tools/library` at the repository's root:
//!
//!     cargo run --release -p conformance
//!
//! If the two differ, it names the case and writes nothing.

use conformance::files::{made, Made};
use conformance::kept::folder;
use std::fs;
use std::process::ExitCode;

fn main() -> ExitCode {
    match made().and_then(|files| files.iter().try_for_each(write)) {
        Ok(()) => ExitCode::SUCCESS,
        Err(wrong) => {
            eprintln!("{wrong}");
            ExitCode::FAILURE
        }
    }
}

fn write(file: &Made) -> Result<(), String> {
    let path = folder().join(format!("{}.txt", file.name));
    fs::write(&path, &file.text).map_err(|wrong| format!("{}: {wrong}", path.display()))?;
    println!("{}.txt: {} bytes", file.name, file.text.len());
    Ok(())
}
