//! The header agrees with the source, and wrong headers are refused, each for what is wrong in it.

mod common;

use common::Declarations;
use declarations::{is_installed, Texts};

const HEADER: Declarations = Declarations {
    text: |texts| &mut texts.header,
    check: Texts::check_header,
};

#[test]
fn the_header_agrees() {
    HEADER.agree("header");
    if !is_installed("g++") {
        println!("g++ is not installed: the header was not tried in C++");
    }
}

#[test]
fn wrong_structs_are_refused() {
    let edits = [
        (
            "    uint32_t sums[KISTROVU_MOST_BINS];\n    uint32_t lengths[KISTROVU_MOST_BINS];\n",
            "    uint32_t lengths[KISTROVU_MOST_BINS];\n    uint32_t sums[KISTROVU_MOST_BINS];\n",
            "the place of sums in struct kistrovu_fit_answer",
        ),
        (
            "    uint32_t count;",
            "    uint64_t count;",
            "the size of count in struct kistrovu_entry",
        ),
        (
            "    bool rejected;",
            "    uint8_t rejected;",
            "the type of rejected in struct kistrovu_verdict",
        ),
        (
            "    int64_t cost;\n    bool rejected;",
            "    uint64_t cost;\n    bool rejected;",
            "the type of cost in struct kistrovu_verdict",
        ),
        (
            "entries[KISTROVU_MOST_ENTRIES];",
            "entries[KISTROVU_MOST_BINS];",
            "the size of entries in struct kistrovu_card",
        ),
        (
            "    struct kistrovu_verdict verdict;",
            "    int64_t verdict[2];",
            "the type of verdict in struct kistrovu_verdict_answer",
        ),
        ("    uint32_t separators;\n", "", "separators"),
        // It fits into the gap before the count, so that no size or place changes.
        (
            "    uint8_t blue;\n",
            "    uint8_t blue;\n    uint8_t alpha;\n",
            "\"alpha\"",
        ),
        (
            "{ /* 12,008 bytes */",
            "{ /* 3,068 bytes */",
            "sizes in comments",
        ),
        (
            "struct kistrovu_printed {",
            "struct kistrovu_text {",
            "struct kistrovu_printed",
        ),
        (
            "enum kistrovu_ground {",
            "struct kistrovu_more { uint32_t more; };\nenum kistrovu_ground {",
            "kistrovu_more",
        ),
    ];
    HEADER.refused("structs", &edits);
}

/// The numbers of a record are of one type, so that only their places tell them apart.
#[test]
fn wrong_records_are_refused() {
    let edits = [
        (
            "    int64_t first;  /* the number of the first segment that is joined */\n    int64_t length;",
            "    int64_t length;\n    int64_t first;",
            "the place of first in struct kistrovu_join_record",
        ),
        (
            "    int64_t first; ",
            "    uint64_t first; ",
            "the type of first in struct kistrovu_join_record",
        ),
        (
            "    int64_t rise; ",
            "    bool rise; ",
            "the size of rise in struct kistrovu_join_record",
        ),
        (
            "struct kistrovu_join_record {\n",
            "struct kistrovu_join_record {\n    int64_t number;\n",
            "the size of struct kistrovu_join_record",
        ),
        (
            "struct kistrovu_join_record {",
            "struct kistrovu_record {",
            "struct kistrovu_join_record",
        ),
        (
            "    uint32_t joins;",
            "    uint64_t joins;",
            "the size of joins in struct kistrovu_log_answer",
        ),
        ("    uint32_t joins;\n", "", "joins"),
        (
            "struct kistrovu_log_answer { /* 8 bytes */",
            "struct kistrovu_log_answer { /* 16 bytes */",
            "sizes in comments",
        ),
    ];
    HEADER.refused("records", &edits);
}

#[test]
fn wrong_calls_are_refused() {
    let edits = [
        (
            "kistrovu_print_card(const uint8_t *text",
            "kistrovu_print_card(uint8_t *text",
            "is_kistrovu_print_card",
        ),
        (
            "kistrovu_print_ground(uint32_t number",
            "kistrovu_print_ground(uint8_t number",
            "is_kistrovu_print_ground",
        ),
        (
            "bool rising, int32_t closeness",
            "bool rising, uint32_t closeness",
            "is_kistrovu_verdict",
        ),
        (
            "bool rising, int32_t closeness",
            "int32_t closeness, bool rising",
            "is_kistrovu_verdict",
        ),
        (
            "size_t bytes, int32_t closeness",
            "uint32_t bytes, int32_t closeness",
            "is_kistrovu_card",
        ),
        (
            "struct kistrovu_modes_answer kistrovu_line_modes",
            "struct kistrovu_verdict_answer kistrovu_line_modes",
            "is_kistrovu_line_modes",
        ),
        (
            "kistrovu_version(void)",
            "kistrovu_version()",
            "strict-prototypes",
        ),
        (
            "kistrovu_modes_answer kistrovu_ring_modes(",
            "kistrovu_modes_answer kistrovu_rings(",
            "kistrovu_ring_modes",
        ),
    ];
    HEADER.refused("calls", &edits);
}

/// Labels of one byte are those of the versions before.
#[test]
fn wrong_calls_of_labels_are_refused() {
    let edits = [
        (
            "int32_t closeness, uint16_t *labels",
            "int32_t closeness, uint8_t *labels",
            "is_kistrovu_card",
        ),
        (
            "int32_t closeness, uint16_t *labels",
            "int32_t closeness, const uint16_t *labels",
            "is_kistrovu_card",
        ),
        (
            "size_t count, uint16_t *labels",
            "size_t count, uint8_t *labels",
            "is_kistrovu_widen_labels",
        ),
        (
            "(const uint8_t *narrow",
            "(uint8_t *narrow",
            "is_kistrovu_widen_labels",
        ),
        (
            "uint32_t kistrovu_widen_labels(",
            "struct kistrovu_modes_answer kistrovu_widen_labels(",
            "is_kistrovu_widen_labels",
        ),
        (
            "uint32_t kistrovu_widen_labels(",
            "void kistrovu_widen_labels(",
            "is_kistrovu_widen_labels",
        ),
        (
            "uint32_t kistrovu_widen_labels(",
            "uint32_t kistrovu_widen(",
            "kistrovu_widen_labels",
        ),
    ];
    HEADER.refused("label-calls", &edits);
}

#[test]
fn wrong_calls_of_a_log_are_refused() {
    let edits = [
        (
            "int32_t closeness, int64_t *log",
            "int32_t closeness, const int64_t *log",
            "is_kistrovu_join_log",
        ),
        (
            "int32_t closeness, int64_t *log",
            "int32_t closeness, struct kistrovu_join_record *log",
            "is_kistrovu_join_log",
        ),
        (
            "kistrovu_log_answer kistrovu_join_log(",
            "kistrovu_log_answer kistrovu_log(",
            "kistrovu_join_log",
        ),
        (
            "int32_t closeness, const int64_t *log",
            "int32_t closeness, int64_t *log",
            "is_kistrovu_replay",
        ),
        (
            "size_t numbers, uint32_t *separators",
            "size_t numbers, const uint32_t *separators",
            "is_kistrovu_replay",
        ),
        (
            "struct kistrovu_modes_answer kistrovu_replay",
            "struct kistrovu_log_answer kistrovu_replay",
            "is_kistrovu_replay",
        ),
    ];
    HEADER.refused("log-calls", &edits);
}

#[test]
fn calls_left_over_are_refused() {
    let edits = [
        (
            "uint32_t kistrovu_version(void);",
            "uint32_t kistrovu_version(void);\nuint32_t kistrovu_more(void);",
            "calls: only in the declarations or the source: [\"kistrovu_more\"]",
        ),
        (
            "uint32_t kistrovu_version(void);",
            "uint32_t kistrovu_version(void);\nuint32_t kistrovu_version(void);",
            "calls: one is declared twice",
        ),
    ];
    HEADER.refused("left-over", &edits);
}

#[test]
fn wrong_grounds_are_refused() {
    let edits = [
        (
            "KISTROVU_SUM = 7,",
            "KISTROVU_SUM = 8,",
            "numbers of the grounds",
        ),
        (
            "KISTROVU_ENTRIES = 11,",
            "KISTROVU_ENTRIES = 12,",
            "numbers of the grounds",
        ),
        (
            "KISTROVU_LOG = 20 ",
            "KISTROVU_LOG = 12 ",
            "numbers of the grounds",
        ),
        (
            "    KISTROVU_LOG = 20 ",
            "    KISTROVU_MORE = 12,\n    KISTROVU_LOG = 20 ",
            "numbers of the grounds",
        ),
        ("    KISTROVU_SERVED = 0,\n", "", "numbers of the grounds"),
        (
            "    KISTROVU_SERVED = 0,\n",
            "    KISTROVU_SERVED = 0,\n    KISTROVU_MORE = 12,\n",
            "numbers of the grounds",
        ),
        (
            "closeness is below -10 or above 20 */",
            "closeness is below -10 or above 21 */",
            "the words of KISTROVU_CLOSENESS",
        ),
        (
            "each pixel, or for each one-byte label that is read into it */",
            "each pixel */",
            "the words of KISTROVU_LABELS",
        ),
        (
            "more than 1,000 entries */",
            "more than 255 entries */",
            "the words of KISTROVU_ENTRIES",
        ),
        (
            "the list to write a log in, has fewer places",
            "the log, has fewer places",
            "the words of KISTROVU_SEPARATORS",
        ),
        (
            "the method writes for the line */",
            "the method writes for a line */",
            "the words of KISTROVU_LOG",
        ),
        (
            "Grounds 4, 5, 8, 9, 11\n",
            "Grounds 4, 5, 8, 11\n",
            "the grounds of kistrovu_card are said to be [4, 5, 8, 11]",
        ),
        (
            "widened. Ground 9\n",
            "widened. Grounds 9, 11\n",
            "the grounds of kistrovu_widen_labels are said to be [9, 11]",
        ),
        (
            "widened. Ground 9\n",
            "widened. No ground concerns it\n",
            "the grounds of kistrovu_widen_labels are said to be []",
        ),
        (
            "the log of a line's joins. Grounds 6, 7, 8, 10\n",
            "the log of a line's joins. Grounds 6, 7, 8, 10, 20\n",
            "the grounds of kistrovu_join_log are said to be [6, 7, 8, 10, 20]",
        ),
        (
            "Grounds 6, 7, 8, 10, 20\n",
            "Grounds 6, 7, 8, 10\n",
            "the grounds of kistrovu_replay are said to be [6, 7, 8, 10]",
        ),
        (
            "No ground concerns it; the number",
            "Grounds 1; the number",
            "the grounds of kistrovu_measures are said to be [1]",
        ),
    ];
    HEADER.refused("grounds", &edits);
}

#[test]
fn wrong_macros_are_refused() {
    let edits = [
        (
            "#define KISTROVU_MOST_ENTRIES 1000",
            "#define KISTROVU_MOST_ENTRIES 255",
            "KISTROVU_MOST_ENTRIES",
        ),
        (
            "#define KISTROVU_MOST_PRINTED 49019",
            "#define KISTROVU_MOST_PRINTED 12514",
            "KISTROVU_MOST_PRINTED",
        ),
        (
            "#define KISTROVU_RECORD_NUMBERS 4\n",
            "#define KISTROVU_RECORD_NUMBERS 5\n",
            "KISTROVU_RECORD_NUMBERS",
        ),
        (
            "#define KISTROVU_RECORD_NUMBERS 4\n",
            "",
            "KISTROVU_RECORD_NUMBERS",
        ),
        (
            "#define KISTROVU_VERSION_MINOR ",
            "#define KISTROVU_VERSION_MINOR 9",
            "KISTROVU_VERSION_MINOR",
        ),
        (
            "#define KISTROVU_MOST_TEXT (13 *",
            "#define KISTROVU_MOST_TEXT (12 *",
            "KISTROVU_MOST_TEXT",
        ),
        (
            "#define KISTROVU_MOST_BINS 256\n",
            "#define KISTROVU_MOST_BINS 256\n#define KISTROVU_MOST_MORE 1\n",
            "macros: only in the declarations or the source: [\"KISTROVU_MOST_MORE\"]",
        ),
    ];
    HEADER.refused("macros", &edits);
}

#[test]
fn wrong_guards_are_refused() {
    let edit = ("#ifndef KISTROVU_H\n", "#if 1\n", "redefinition");
    HEADER.refused("guards", &[edit]);
    if is_installed("g++") {
        let edit = ("extern \"C\" {", "extern \"C++\" {", "linkage");
        HEADER.refused("linkage", &[edit]);
    }
}
