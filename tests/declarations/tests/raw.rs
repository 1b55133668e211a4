//! The Rust declarations agree with the source, or this does not compile; and wrong ones are refused, each for what is
//! wrong in it.

mod common;

use common::Declarations;
use declarations::Texts;
use kistrovu::raw;

// Everything in it is checked by the compiler.
include!(concat!(env!("OUT_DIR"), "/raw_checks.rs"));

const RAW: Declarations = Declarations {
    text: |texts| &mut texts.raw,
    check: Texts::check_raw,
};

#[test]
fn the_declarations_agree() {
    RAW.agree("raw");
}

#[test]
fn wrong_structs_are_refused() {
    let edits = [
        ("    pub count: u32,", "    pub count: u64,", "&made.count"),
        (
            "    pub rejected: u8,",
            "    pub rejected: bool,",
            "&made.rejected",
        ),
        (
            "    pub cost: i64,\n    /// 1 if the histogram is rejected",
            "    pub cost: u64,\n    /// 1 if the histogram is rejected",
            "&made.cost",
        ),
        (
            "pub entries: [Entry; MOST_ENTRIES]",
            "pub entries: [Entry; MOST_BINS]",
            "size_of::<raw::Card>()",
        ),
        ("    pub separators: u32,\n", "", "`separators`"),
        // It fits into the gap before the count, so that no size or place changes.
        (
            "    pub blue: u8,\n",
            "    pub blue: u8,\n    pub alpha: u8,\n",
            "`alpha`",
        ),
        (
            "extern \"C\" {\n",
            "#[repr(C)]\npub struct More {}\nextern \"C\" {\n",
            "[\"More\"]",
        ),
    ];
    RAW.refused("raw-structs", &edits);
}

#[test]
fn wrong_records_are_refused() {
    let edits = [
        ("    pub first: i64,", "    pub first: u64,", "&made.first"),
        // Padded, it is as large, and all else is in its place.
        ("    pub rise: i64,", "    pub rise: u8,", "&made.rise"),
        ("    pub joins: u32,", "    pub joins: i32,", "&made.joins"),
        ("    pub joins: u32,\n", "", "`joins`"),
        (
            "pub struct JoinRecord {\n",
            "pub struct JoinRecord {\n    pub number: i64,\n",
            "`number`",
        ),
    ];
    RAW.refused("raw-records", &edits);
}

/// The two lists of a fit are of one type, and so are the numbers of a record: only their places tell them apart.
#[test]
fn wrong_places_are_refused() {
    let lists = "    /// For each bin the sum of its block.
    pub sums: [u32; MOST_BINS],
    /// For each bin the length of its block.
    pub lengths: [u32; MOST_BINS],
";
    let swapped = "    pub lengths: [u32; MOST_BINS],\n    pub sums: [u32; MOST_BINS],\n";
    let said = "offset_of!(raw::FitAnswer, sums)";
    RAW.refused("raw-places", &[(lists, swapped, said)]);
    let numbers = "    pub first: i64,
    /// How many segments are joined, 2 or more.
    pub length: i64,
";
    let swapped = "    pub length: i64,\n    pub first: i64,\n";
    let said = "offset_of!(raw::JoinRecord, first)";
    RAW.refused("raw-record-places", &[(numbers, swapped, said)]);
}

/// A layout that the compiler chooses may be right by chance, so it is refused by the scan.
#[test]
fn a_layout_that_is_not_promised_is_refused() {
    let edits = [
        (
            "#[repr(C)]\n#[derive(Clone, Copy, Debug, PartialEq, Eq)]\npub struct ModesAnswer",
            "#[derive(Clone, Copy, Debug, PartialEq, Eq)]\npub struct ModesAnswer",
            "ModesAnswer is not repr(C)",
        ),
        (
            "#[repr(C)]\n#[derive(Clone, Copy, Debug, Default, PartialEq, Eq, Hash)]\npub struct JoinRecord",
            "#[derive(Clone, Copy, Debug, Default, PartialEq, Eq, Hash)]\npub struct JoinRecord",
            "JoinRecord is not repr(C)",
        ),
    ];
    RAW.refused("raw-unmarked", &edits);
}

#[test]
fn wrong_calls_are_refused() {
    let edits = [
        (
            "kistrovu_print_card(text: *const u8",
            "kistrovu_print_card(text: *mut u8",
            "raw::kistrovu_print_card",
        ),
        (
            "kistrovu_print_ground(number: u32)",
            "kistrovu_print_ground(number: u64)",
            "raw::kistrovu_print_ground",
        ),
        (
            "kistrovu_fit(histogram: *const u32, bins: usize, rising: bool)",
            "kistrovu_fit(histogram: *const u32, rising: bool, bins: usize)",
            "raw::kistrovu_fit",
        ),
        (
            "rising: bool) -> FitAnswer",
            "rising: u8) -> FitAnswer",
            "raw::kistrovu_fit",
        ),
        (
            "pub fn kistrovu_version() -> u32",
            "pub fn kistrovu_version() -> u64",
            "raw::kistrovu_version",
        ),
        (
            "pub fn kistrovu_ring_modes(",
            "pub fn kistrovu_rings(",
            "kistrovu_ring_modes",
        ),
        (
            "extern \"C\" {\n",
            "extern \"C\" {\n    pub fn kistrovu_more() -> u32;\n",
            "[\"kistrovu_more\"]",
        ),
        ("log: *mut i64", "log: *const i64", "raw::kistrovu_join_log"),
        (
            "log: *mut i64",
            "log: *mut JoinRecord",
            "raw::kistrovu_join_log",
        ),
        ("log: *const i64", "log: *mut i64", "raw::kistrovu_replay"),
        (
            "pub fn kistrovu_replay(",
            "pub fn kistrovu_follow(",
            "kistrovu_replay",
        ),
        (
            "Grounds 4, 5, 8, 9, 11",
            "Grounds 4, 5, 8, 9",
            "the grounds of kistrovu_card",
        ),
        (
            "Grounds 6, 7, 8, 10, 20",
            "Grounds 6, 7, 8, 10",
            "the grounds of kistrovu_replay",
        ),
    ];
    RAW.refused("raw-calls", &edits);
}

/// Labels of one byte are those of the versions before.
#[test]
fn wrong_calls_of_labels_are_refused() {
    let edits = [
        (
            "closeness: i32,\n        labels: *mut u16",
            "closeness: i32,\n        labels: *mut u8",
            "raw::kistrovu_card",
        ),
        (
            "closeness: i32,\n        labels: *mut u16",
            "closeness: i32,\n        labels: *const u16",
            "raw::kistrovu_card",
        ),
        (
            "count: usize,\n        labels: *mut u16",
            "count: usize,\n        labels: *mut u8",
            "raw::kistrovu_widen_labels",
        ),
        (
            "narrow: *const u8",
            "narrow: *mut u8",
            "raw::kistrovu_widen_labels",
        ),
        (
            "places: usize,\n    ) -> u32;",
            "places: usize,\n    ) -> ModesAnswer;",
            "raw::kistrovu_widen_labels",
        ),
        (
            "pub fn kistrovu_widen_labels(",
            "pub fn kistrovu_widen(",
            "kistrovu_widen_labels",
        ),
        (
            "Ground 9.",
            "Grounds 9, 11.",
            "the grounds of kistrovu_widen_labels",
        ),
    ];
    RAW.refused("raw-label-calls", &edits);
}

#[test]
fn wrong_constants_are_refused() {
    let edits = [
        (
            "MOST_ENTRIES: usize = 1_000",
            "MOST_ENTRIES: usize = 255",
            "raw::MOST_ENTRIES",
        ),
        (
            "RECORD_NUMBERS: usize = 4",
            "RECORD_NUMBERS: usize = 5",
            "raw::RECORD_NUMBERS",
        ),
        (
            "MOST_CLOSENESS: i32 = 20",
            "MOST_CLOSENESS: i32 = 21",
            "raw::MOST_CLOSENESS",
        ),
        (
            "pub const MOST_BINS",
            "pub const MORE: u32 = 0;\npub const MOST_BINS",
            "the constant MORE is not known",
        ),
    ];
    RAW.refused("raw-constants", &edits);
}
