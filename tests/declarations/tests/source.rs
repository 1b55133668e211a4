//! The source is read completely and strictly, and if it has changed, the header no longer agrees with it.

use declarations::grounds::Grounds;
use declarations::rattle::Source;
use declarations::tokens::tokens;
use declarations::{edited, read, root, Texts, CALLS, EXPORTS, FILES};
use std::fs;
use std::path::Path;

fn marks(text: &str, mark: &str) -> usize {
    text.matches(mark).count()
}

#[test]
fn all_that_is_marked_is_read() {
    let texts = Texts::of_repository();
    let source = texts.source().expect("the source can be read");
    let total = |mark| texts.rattle.iter().map(|(_, text)| marks(text, mark)).sum();
    assert_eq!(source.structs.len(), total("#[repr(C)]"));
    assert_eq!(source.calls.len(), total("#[unsafe(no_mangle)]"));
    let used = |made| source.is_answer(made) || source.is_held(made);
    let rest: Vec<_> = source.structs.iter().filter(|made| !used(made)).collect();
    assert_eq!(rest.len(), 1, "{rest:?}");
    assert!(source.is_record(rest[0]), "{rest:?}");
}

#[test]
fn no_other_file_exports() {
    let crates = fs::read_dir(root().join("crates")).expect("the crates can be read");
    let folders = crates.map(|entry| entry.expect("a crate").path().join("src"));
    let files = folders.flat_map(|folder| fs::read_dir(folder).expect("a crate has sources"));
    let files: Vec<_> = files.map(|entry| entry.expect("a file").path()).collect();
    assert!(files.len() > FILES.len());
    for file in files {
        let text = fs::read_to_string(&file).expect("a source is text");
        let exports = marks(&text, "no_mangle") + marks(&text, "repr(") > 0;
        let known = FILES.iter().any(|name| same(&root().join(name), &file));
        assert!(known || !exports, "{}", file.display());
    }
}

fn same(a: &Path, b: &Path) -> bool {
    a.canonicalize().ok() == b.canonicalize().ok()
}

/// The calls that a text declares, each with its arguments, its answer and its clauses, whatever the lines.
fn declared(text: &str) -> Vec<String> {
    let parts = text.replace("extern \"C\" ", "");
    let calls = parts.split("\npub fn kistrovu_").skip(1);
    let declared = calls.map(|call| call.split_once("\n{\n").expect("a call has a body").0);
    let words = declared.map(|call| tokens(call).join(" "));
    words.map(|call| call.replace(", )", ")")).collect()
}

/// C is handed the calls of the library under the same names, and nothing weaker is promised of them there.
#[test]
fn an_export_has_the_clauses_of_its_call() {
    let [calls, exports] = [CALLS, EXPORTS].map(read);
    assert_eq!(
        declared(&calls).len(),
        marks(&exports, "#[unsafe(no_mangle)]")
    );
    assert_eq!(declared(&calls), declared(&exports));
    let weaker = edited(&exports, "result ≡ library_version", "result ≡ result");
    assert_ne!(declared(&calls), declared(&weaker));
}

const SMALL: &str = "
const MOST: usize = 2 + 3 * 4;
#[repr(C)]
pub struct Inner { pub small: u8, pub middle: u16, pub large: i64, pub last: bool, }
// #[repr(C)] pub struct Comment
#[repr(C)]
#[derive(Clone, Copy)]
pub struct Answer { pub number: u32, pub inner: [Inner; MOST], pub tail: [u8; 3], }
#[unsafe(no_mangle)]
pub extern \"C\" fn call(list: &[u32], places: &mut [u16], flag: bool) -> Answer ensures { result ≡ said list.now } { 0 }
";

#[test]
fn layouts_follow_the_rule_of_c() {
    let source = Source::read([("small", SMALL)]).expect("it can be read");
    let [inner, answer] = source.structs.as_slice() else {
        panic!("{:?}", source.structs)
    };
    assert_eq!(source.places(inner), [0, 2, 8, 16, 17]);
    assert_eq!(source.layout(inner).size, 24);
    assert_eq!(source.places(answer), [0, 8, 8 + 14 * 24, 8 + 14 * 24 + 3]);
    assert_eq!(source.layout(answer).size, 8 + 14 * 24 + 8);
    assert_eq!(source.layout(answer).align, 8);
}

#[test]
fn wrong_sources_are_refused() {
    let edits = [
        ("pub large: i64", "pub large: u64", "the type u64"),
        ("pub large: i64", "large: i64", "`pub` is expected"),
        ("[Inner; MOST]", "[Outer; MOST]", "the type Outer"),
        ("[Inner; MOST]", "[Inner; LEAST]", "the value LEAST"),
        ("[Inner; MOST]", "[[Inner; 2]; MOST]", "a name is expected"),
        ("-> Answer", "-> Said", "the type Said"),
        ("-> Answer", "", "`->` is expected"),
        ("&[u32]", "&u32", "`[` is expected"),
        ("struct Answer", "enum Answer", "`pub struct`"),
        (
            "#[repr(C)]\n#[derive",
            "#[repr(u8)]\n#[derive",
            "`(C)]` is expected",
        ),
        ("(Clone, Copy)", "(Clone)", "`(Clone, Copy)]` is expected"),
        (
            "#[unsafe(no_mangle)]\n",
            "",
            "`#[unsafe(no_mangle)]` is expected",
        ),
        (
            "pub extern \"C\" fn",
            "pub fn",
            "`pub extern \"C\" fn` is expected",
        ),
        ("2 + 3 * 4", "2 - 1", "`;` is expected"),
        ("struct Answer", "struct Inner", "Inner is declared twice"),
    ];
    for (from, to, said) in edits {
        let text = edited(SMALL, from, to);
        let found = Source::read([("small", text.as_str())]).expect_err(to);
        assert!(found.contains(said), "`{to}` is refused, but with: {found}");
    }
}

#[test]
fn a_source_that_exports_nothing_is_refused() {
    let (structs, _) = SMALL
        .split_once("#[unsafe(no_mangle)]")
        .expect("there is a call");
    let call = "#[unsafe(no_mangle)] pub extern \"C\" fn call() -> u32 { 0 }";
    for text in ["", structs, call] {
        let found = Source::read([("small", text)]).expect_err(text);
        assert_eq!(found, "no struct or no call is exported");
    }
}

#[test]
fn a_changed_source_is_seen() {
    let edits = [
        (
            "crates/palette/src/lib.rt",
            "MOST_ENTRIES: usize = 1000",
            "MOST_ENTRIES: usize = 255",
            "KISTROVU_MOST_PRINTED",
        ),
        (
            EXPORTS,
            "closeness: i32, labels: &mut [u16]",
            "closeness: i32, labels: &mut [u8]",
            "is_kistrovu_card",
        ),
        (
            EXPORTS,
            "labels: &mut [u16]) -> u32",
            "labels: &mut [u16]) -> u8",
            "is_kistrovu_widen_labels",
        ),
        (
            "crates/pixel/src/lib.rt",
            "pub grey: bool",
            "pub grey: u8",
            "the type of grey",
        ),
        (
            EXPORTS,
            "fn kistrovu_ring_modes",
            "fn kistrovu_rings",
            "kistrovu_rings",
        ),
        (
            "crates/joinlog/src/lib.rt",
            "pub rise: i64",
            "pub rise: bool",
            "the size of rise",
        ),
        (
            "crates/joinlog/src/lib.rt",
            "RECORD_NUMBERS: usize = 4",
            "RECORD_NUMBERS: usize = 5",
            "KISTROVU_RECORD_NUMBERS",
        ),
        (
            "crates/kistrovu/src/lib.rt",
            "pub joins: u32",
            "pub joins: i64",
            "the size of joins",
        ),
        (
            EXPORTS,
            "log: &[i64]",
            "log: &mut [i64]",
            "is_kistrovu_replay",
        ),
    ];
    let right = Texts::of_repository();
    let folder = Path::new(env!("CARGO_TARGET_TMPDIR")).join("source");
    fs::create_dir_all(&folder).expect("a folder can be made");
    for (file, from, to, said) in edits {
        let mut wrong = right.clone();
        let text = wrong.rattle.iter_mut().find(|(name, _)| *name == file);
        let (_, text) = text.expect(file);
        *text = edited(text, from, to);
        let found = wrong.check_header(&folder).expect_err(to);
        assert!(found.contains(said), "`{to}` is seen, but with: {found}");
    }
}

/// A limit that is changed in the source and in its macro, but not in the words of its ground.
#[test]
fn a_figure_in_words_is_held_to_its_macro() {
    let mut texts = Texts::of_repository();
    let verdict = texts
        .rattle
        .iter_mut()
        .find(|(_, text)| text.contains("const MOST_CLOSENESS"));
    let (_, text) = verdict.expect("the closeness has a limit");
    *text = edited(text, "MOST_CLOSENESS: i32 = 20", "MOST_CLOSENESS: i32 = 19");
    texts.header = edited(&texts.header, "MOST_CLOSENESS 20", "MOST_CLOSENESS 19");
    let folder = Path::new(env!("CARGO_TARGET_TMPDIR")).join("figures");
    fs::create_dir_all(&folder).expect("a folder can be made");
    let found = texts.check_header(&folder).expect_err("19");
    assert_eq!(
        found,
        "the words of ground 8 have not KISTROVU_MOST_CLOSENESS"
    );
}

#[test]
fn wrong_lists_of_grounds_are_refused() {
    let right = Texts::of_repository().grounds;
    assert!(Grounds::read(&right).is_ok());
    let wrong = [
        edited(&right, "- **G9** ", "- **G10** "),
        edited(&right, "number = 9;", "number = 8;"),
        edited(&right, "text_number text = ", "word_number text = "),
        edited(&right, "- **G20** ", "- **G12** "),
        edited(&right, "number = 20;", "number = 12;"),
        edited(
            &right,
            "replay_number e h log places = ",
            "n e h log places = ",
        ),
        String::new(),
    ];
    for text in wrong {
        assert!(Grounds::read(&text).is_err());
    }
}

#[test]
fn a_changed_sequence_of_grounds_is_seen() {
    let texts = Texts::of_repository();
    let source = texts.source().expect("the source can be read");
    let [calls, exports] = [CALLS, EXPORTS].map(read);
    let edits = [
        (
            " ∷ bad_closeness e ∷ few_places h places ∷ [])",
            " ∷ bad_closeness e ∷ [])",
            "kistrovu_line_modes",
        ),
        (" ∷ other_log e h log ∷ [])", " ∷ [])", "kistrovu_replay"),
        (
            "(bad_labels (length narrow) places ∷ [])",
            "([])",
            "kistrovu_widen_labels",
        ),
    ];
    for text in [&texts.header, &calls, &exports] {
        let said = |grounds: &str| Grounds::read(grounds)?.are_said(&source, text);
        assert_eq!(said(&texts.grounds), Ok(()));
        for (from, to, call) in edits {
            let fewer = edited(&texts.grounds, from, to);
            assert!(said(&fewer).is_err_and(|wrong| wrong.contains(call)));
        }
    }
}

#[test]
fn words_and_signs_are_told_apart() {
    assert_eq!(
        tokens("a_1[ 22]->b"),
        ["a_1", "[", "22", "]", "-", ">", "b"]
    );
}
