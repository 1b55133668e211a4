//! No file of the crates imports what it does not use, and an unused import is noticed.

use imports::{unused, Language};
use std::fs;
use std::path::{Path, PathBuf};

fn files(folder: &Path, found: &mut Vec<PathBuf>) {
    for entry in fs::read_dir(folder).expect("a folder can be read") {
        let path = entry.expect("an entry").path();
        if path.is_dir() {
            files(&path, found);
        } else {
            found.push(path);
        }
    }
}

#[test]
fn crates_use_what_they_import() {
    let mut found = Vec::new();
    let top = Path::new(env!("CARGO_MANIFEST_DIR")).join("../../crates");
    for entry in fs::read_dir(top).expect("the crates can be read") {
        // What the check makes is in a folder `out` beside these.
        for part in ["src", "specs", "proofs"] {
            let folder = entry.as_ref().expect("a crate").path().join(part);
            if folder.is_dir() {
                files(&folder, &mut found);
            }
        }
    }
    let mut left = Vec::new();
    let mut read = 0;
    for path in found {
        let Some(language) = Language::of(&path.to_string_lossy()) else {
            continue;
        };
        read += 1;
        let text = fs::read_to_string(&path).expect("a source is text");
        let names = unused(language, &text);
        left.extend(
            names
                .iter()
                .map(|name| format!("{}: {name}", path.display())),
        );
    }
    assert!(read > 100, "{read} files were read");
    assert!(left.is_empty(), "not used:\n{}", left.join("\n"));
}

#[test]
fn names_in_antt() {
    let text = "-- refl\nuse a.B.{refl, ◌+◌, ◌≤ℤ◌, ◌∷◌, [], go-on, go_on}\nuse a.Tie as tie\npub use a.C.{kept}\n\nf : x ≤ y -- refl\nf = tie.close [] (go-on z)\n";
    assert_eq!(
        unused(Language::Antt, text),
        ["refl", "◌+◌", "◌≤ℤ◌", "◌∷◌", "go_on"]
    );
    let text = text.replace("x ≤ y", "x ≤ℤ y + refl ∷ go_on");
    assert_eq!(unused(Language::Antt, &text), Vec::<String>::new());
}

#[test]
fn fields_are_not_names() {
    let text = "use a.B.{first, second, third, fourth}\n\nf c = record { first = (g c).second; third = fourth.first; }\n";
    assert_eq!(unused(Language::Antt, text), ["first", "second", "third"]);
}

#[test]
fn names_in_rattle() {
    let text = "use a::Wide;\nuse b::c;\nghost use d.E.{\n  total,\n  ◌<◌,\n};\nghost use d.Blocks as Blocks;\npub use e::kept;\n\n// Wide\nfn f(x: u8)\n    requires small { total x.now ≤ Blocks.push }\n{ c::g(x) }\n";
    assert_eq!(unused(Language::Rattle, text), ["Wide", "◌<◌"]);
    let text = text.replace("{ c::g(x) }", "{ !Wide(&c) }");
    assert_eq!(unused(Language::Rattle, &text), ["◌<◌"]);
}

#[test]
fn modules_and_traits_in_rattle() {
    let text = "use a::io::{self, Read, Write};\nuse b::fmt::Write as _;\n\nfn f(x: u8) { g(x) }\n";
    assert_eq!(unused(Language::Rattle, text), ["io", "Read", "Write"]);
    let text = text.replace("f(x: u8)", "f<R: Read, W: Write>(x: io::Size)");
    assert_eq!(unused(Language::Rattle, &text), Vec::<String>::new());
}
