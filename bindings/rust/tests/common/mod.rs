//! What several of the tests read: files of the repository, and the pixels of a swatch's text.
// Each test uses only what it needs.
#![allow(dead_code)]

use std::fs;
use std::path::PathBuf;

/// The top of the repository.
fn top() -> PathBuf {
    PathBuf::from(env!("CARGO_MANIFEST_DIR")).join("../..")
}

/// A file of the repository, by its name from the top.
pub fn file(name: &str) -> String {
    fs::read_to_string(top().join(name)).unwrap_or_else(|wrong| panic!("{name}: {wrong}"))
}

/// The stored swatches of this many entries are on both sides of what fits labels of one byte, and at the limit.
pub const ENTRIES: [usize; 6] = [254, 255, 256, 257, 999, 1_000];

/// The text of the stored swatch that has this many entries, and its card.
pub fn of_entries(entries: usize) -> [String; 2] {
    ["txt", "card"].map(|ending| file(&format!("tests/swatches/{entries}-entries.{ending}")))
}

/// The names of the swatches in `examples/`.
pub fn examples() -> Vec<String> {
    let files = fs::read_dir(top().join("examples")).expect("examples");
    let names = files.map(|file| file.expect("a file").file_name());
    let names = names.filter_map(|name| Some(name.to_str()?.strip_suffix(".swatch")?.to_string()));
    let names: Vec<String> = names.collect();
    assert!(!names.is_empty(), "there are no swatches");
    names
}

/// The bytes of a swatch's pixels. Between fields of 4 columns there is always a space.
pub fn pixels(swatch: &str) -> Vec<u8> {
    let fields = swatch.lines().skip(1).flat_map(str::split_whitespace);
    fields.map(|field| field.parse().expect("a byte")).collect()
}

/// This many pixels of a cube of 12 × 12 × 12 colours, one after the other. With 9 or more of each, its card would have
/// more than 1,000 entries.
pub fn cube(pixels: usize) -> Vec<u8> {
    let level = |place: usize| 23 * (place % 12) as u8;
    let colour = |place| [level(place), level(place / 12), level(place / 144)];
    (0..pixels).flat_map(colour).collect()
}
