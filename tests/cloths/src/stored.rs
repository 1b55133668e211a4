//! The stored swatches and the examples: what they are made from, and where they are kept. The cards beside them are what
//! the reference prints.

use crate::{damaged, weaves, well_formed};
use reference::calls::{program, PrintedAnswer};
use std::fs;
use std::path::{Path, PathBuf};

/// A text, and the number that the card program's call gives it.
#[derive(Clone, Debug, PartialEq, Eq)]
pub struct Made {
    pub name: &'static str,
    pub number: u32,
    pub text: Vec<u8>,
}

/// A text and its card, as read from their files.
pub struct Stored {
    pub name: String,
    pub text: Vec<u8>,
    pub card: Vec<u8>,
}

/// A folder of texts, how their files end, and what else is kept there.
pub struct Folder {
    pub path: PathBuf,
    pub ending: &'static str,
    pub made: Vec<Made>,
    pub others: &'static [&'static str],
}

pub fn folders() -> [Folder; 2] {
    let here = Path::new(env!("CARGO_MANIFEST_DIR"));
    [
        Folder {
            path: here.join("../swatches"),
            ending: "txt",
            made: [well_formed::swatches(), damaged::swatches()].concat(),
            others: &["README.md"],
        },
        Folder {
            path: here.join("../../examples"),
            ending: "swatch",
            made: weaves::examples(),
            others: &["README.md", "controller.c"],
        },
    ]
}

impl Folder {
    pub fn text_file(&self, name: &str) -> PathBuf {
        self.path.join(format!("{name}.{}", self.ending))
    }

    pub fn card_file(&self, name: &str) -> PathBuf {
        self.path.join(format!("{name}.card"))
    }

    /// The names of the texts that are kept, sorted.
    pub fn names(&self) -> Result<Vec<String>, String> {
        let ending = format!(".{}", self.ending);
        let names = self.files()?;
        let names = names.iter().filter_map(|name| name.strip_suffix(&ending));
        Ok(names.map(str::to_string).collect())
    }

    /// The names of all files, sorted, except those that begin with a dot.
    pub fn files(&self) -> Result<Vec<String>, String> {
        let wrong = |wrong| format!("{}: {wrong}", self.path.display());
        let mut names = Vec::new();
        for entry in fs::read_dir(&self.path).map_err(wrong)? {
            names.push(entry.map_err(wrong)?.file_name().to_string_lossy().into());
        }
        names.retain(|name: &String| !name.starts_with('.'));
        names.sort_unstable();
        Ok(names)
    }
}

/// What the card program prints, as the reference has it.
pub fn printed(text: &[u8]) -> Vec<u8> {
    let PrintedAnswer { len, bytes, .. } = program(text);
    bytes[..len as usize].to_vec()
}

/// Everything that is kept, from the files.
pub fn stored() -> Result<Vec<Stored>, String> {
    let mut stored = Vec::new();
    for folder in folders() {
        for name in folder.names()? {
            stored.push(Stored {
                text: read(&folder.text_file(&name))?,
                card: read(&folder.card_file(&name))?,
                name,
            });
        }
    }
    Ok(stored)
}

fn read(file: &Path) -> Result<Vec<u8>, String> {
    fs::read(file).map_err(|wrong| format!("{}: {wrong}", file.display()))
}
