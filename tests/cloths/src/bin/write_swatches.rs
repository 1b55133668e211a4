//! Writes the stored swatches and the examples anew, with the cards that the reference prints. In `tests/`:
//!
//!     cargo run --release -p cloths
//!
//! A stored text that is no longer made is removed with its card.

use cloths::stored::{folders, printed, Folder};
use std::fs;
use std::process::ExitCode;

fn main() -> ExitCode {
    for folder in folders() {
        match write(&folder) {
            Ok(count) => println!("{count} texts in {}", folder.path.display()),
            Err(wrong) => {
                eprintln!("{}: {wrong}", folder.path.display());
                return ExitCode::FAILURE;
            }
        }
    }
    ExitCode::SUCCESS
}

fn write(folder: &Folder) -> Result<usize, String> {
    let told = |wrong: std::io::Error| wrong.to_string();
    fs::create_dir_all(&folder.path).map_err(told)?;
    for name in folder.names()? {
        if folder.made.iter().all(|made| made.name != name) {
            fs::remove_file(folder.text_file(&name)).map_err(told)?;
            fs::remove_file(folder.card_file(&name)).map_err(told)?;
        }
    }
    for made in &folder.made {
        fs::write(folder.text_file(made.name), &made.text).map_err(told)?;
        fs::write(folder.card_file(made.name), printed(&made.text)).map_err(told)?;
    }
    Ok(folder.made.len())
}
