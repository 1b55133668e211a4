//! Images for the card.

use super::pixels::corners;
use super::{unwritten_labels, unwritten_wide_labels, Case};
use crate::calls::Call;
use cloths::full_cards;
use cloths::random::Random;
use cloths::yarns::{woven, yarns};
use compare::card_shapes::{self, CardShape};
use reference::calls::{LEAST_CLOSENESS, MOST_CLOSENESS, MOST_PIXELS};
use reference::cards::Pixel;

const SEED: u64 = 106;
const BLACK: Pixel = [0, 0, 0];
const WHITE: Pixel = [255, 255, 255];
const RED: Pixel = [255, 0, 0];
const GREEN: Pixel = [0, 255, 0];
const BLUE: Pixel = [0, 0, 255];
/// The most pixels.
const MOST: usize = MOST_PIXELS as usize;
/// Shapes to draw from, by name.
const SHAPES: [(&str, CardShape); 10] = [
    ("any pixels", card_shapes::noise),
    ("yarns with noise", card_shapes::clusters),
    ("a cloth", card_shapes::cloth),
    ("greys only", card_shapes::greys),
    ("colours only", card_shapes::colours),
    ("tints of one or two hues", card_shapes::tints),
    ("hues over the seam", card_shapes::over_the_seam),
    ("gradients", card_shapes::gradients),
    ("nearly grey", card_shapes::nearly_grey),
    ("few levels", card_shapes::few_levels),
];

pub fn cases() -> Vec<Case> {
    let mut all = samples();
    all.extend(one_pixel());
    all.extend(for_rules());
    all.extend(byte_counts());
    all.extend(pixel_counts());
    all.extend(closenesses());
    all.extend(label_counts());
    all.extend(entry_counts());
    all.extend(grounds_at_once());
    all.extend(weaves());
    all.extend(drawn());
    all.extend(whole_labels());
    all.extend(many_entries());
    all
}

fn lent(what: impl Into<String>, pixels: Vec<u8>, closeness: i32, labels: Vec<u16>) -> Case {
    Case::new(
        what,
        Call::Card {
            pixels,
            closeness,
            labels,
        },
    )
}

fn case(what: impl Into<String>, pixels: Vec<u8>, closeness: i32, places: usize) -> Case {
    lent(what, pixels, closeness, unwritten_labels(places))
}

/// With labels of which both bytes show if they are written.
fn wide(what: impl Into<String>, pixels: Vec<u8>, closeness: i32, places: usize) -> Case {
    lent(what, pixels, closeness, unwritten_wide_labels(places))
}

/// With as many labels as pixels.
fn fitting(what: impl Into<String>, pixels: &[Pixel], closeness: i32) -> Case {
    case(what, pixels.concat(), closeness, pixels.len())
}

/// With as many such labels as pixels.
fn fitting_wide(what: impl Into<String>, pixels: &[Pixel], closeness: i32) -> Case {
    wide(what, pixels.concat(), closeness, pixels.len())
}

/// So many pixels of each colour.
fn runs(runs: &[(Pixel, usize)]) -> Vec<Pixel> {
    let runs = runs.iter().map(|&(pixel, count)| vec![pixel; count]);
    runs.flatten().collect()
}

fn samples() -> Vec<Case> {
    vec![
        fitting("the first sample, black beside red", &[BLACK, RED], 0),
        fitting(
            "the other way round: labels follow the pixels, entries do not",
            &[RED, BLACK],
            0,
        ),
    ]
}

fn one_pixel() -> Vec<Case> {
    let mut pixels = corners();
    pixels.extend([[13, 9, 0], [13, 10, 0], [128, 128, 128], [1, 2, 3]]);
    let one = |pixel: Pixel| {
        fitting(
            format!(
                "one pixel, {}",
                pixel.map(|level| level.to_string()).join(" ")
            ),
            &[pixel],
            0,
        )
    };
    pixels.into_iter().map(one).collect()
}

/// Images that show one rule each: the rule, a closeness, and how many pixels there are of each colour.
type Rule = (&'static str, i32, &'static [(Pixel, usize)]);

const RULES: &[Rule] = &[
    (
        "two greys that are too few to stand apart",
        0,
        &[(BLACK, 1), (WHITE, 1)],
    ),
    (
        "two greys that a lower closeness keeps apart",
        -10,
        &[(BLACK, 1), (WHITE, 1)],
    ),
    ("two greys apart", 0, &[(BLACK, 20), (WHITE, 20)]),
    (
        "two greys that a higher closeness joins",
        20,
        &[(BLACK, 20), (WHITE, 20)],
    ),
    (
        "three greys, numbered by intensity",
        0,
        &[(WHITE, 20), (BLACK, 30), ([128; 3], 25)],
    ),
    (
        "three hues, numbered from the ring's opening",
        0,
        &[(RED, 40), (BLUE, 40), (GREEN, 40)],
    ),
    (
        "one hue on both sides of the ring's seam",
        0,
        &[
            ([100, 200, 0], 40),
            ([104, 200, 0], 40),
            ([100, 0, 200], 40),
        ],
    ),
    (
        "one hue on both sides of the ring's opening, and no other",
        0,
        &[
            ([120, 200, 0], 8),
            ([110, 200, 0], 8),
            ([75, 200, 0], 8),
            ([60, 200, 0], 8),
        ],
    ),
    (
        "the same at a closeness that keeps them apart",
        -10,
        &[
            ([120, 200, 0], 8),
            ([110, 200, 0], 8),
            ([75, 200, 0], 8),
            ([60, 200, 0], 8),
        ],
    ),
    (
        "the hue on both sides of the ring's opening is the last mode, though some of its bins come first",
        0,
        &[
            ([75, 200, 0], 8),
            ([60, 200, 0], 8),
            ([100, 0, 200], 40),
            ([96, 0, 200], 40),
            ([120, 200, 0], 8),
            ([110, 200, 0], 8),
        ],
    ),
    (
        "the same with greys, and with tints on both sides: a mode over the opening is split by all of its pixels",
        0,
        &[
            ([90; 3], 20),
            ([75, 200, 0], 4),
            ([60, 200, 0], 4),
            ([138, 170, 120], 8),
            ([100, 0, 200], 40),
            ([96, 0, 200], 40),
            ([120, 200, 0], 4),
            ([110, 200, 0], 4),
            ([158, 180, 120], 8),
        ],
    ),
    (
        "hues number from the ring's opening, bin 3; an engine that numbers them as the separators are listed swaps the two",
        0,
        &[
            ([100, 200, 0], 60),
            ([75, 200, 0], 2),
            ([60, 200, 0], 60),
        ],
    ),
    (
        "one hue of two saturations",
        0,
        &[([120, 100, 100], 50), ([200, 40, 40], 50)],
    ),
    (
        "one hue of two saturations, one of them of two intensities",
        0,
        &[
            ([225, 105, 105], 50),
            ([150, 30, 30], 50),
            ([120, 100, 100], 50),
        ],
    ),
    (
        "two hues: each is split by its own pixels",
        0,
        &[
            ([225, 105, 105], 50),
            ([150, 30, 30], 50),
            ([40, 40, 200], 50),
            ([100, 100, 120], 50),
        ],
    ),
    (
        "the grey threshold: one grey and one colour",
        0,
        &[([13, 9, 0], 3), ([13, 10, 0], 2)],
    ),
    (
        "a mean of a half is rounded up",
        0,
        &[([0; 3], 1), ([1; 3], 1)],
    ),
    (
        "a mean below a half is rounded down",
        0,
        &[([0; 3], 2), ([1; 3], 1)],
    ),
    (
        "a mean of 254 and a half",
        0,
        &[([254; 3], 1), ([255; 3], 1)],
    ),
    (
        "means of each channel by itself",
        0,
        &[([10, 200, 30], 2), ([12, 203, 30], 1), ([11, 201, 33], 1)],
    ),
    (
        "greys and colours",
        0,
        &[
            (RED, 30),
            ([60; 3], 30),
            (GREEN, 30),
            ([200; 3], 30),
            (BLACK, 30),
        ],
    ),
];

fn for_rules() -> Vec<Case> {
    let one = |&(rule, closeness, pixels): &Rule| fitting(rule, &runs(pixels), closeness);
    RULES.iter().map(one).collect()
}

/// Ground 4 from both sides.
fn byte_counts() -> Vec<Case> {
    let counts = [0, 1, 2, 3, 4, 5, 6, 7];
    counts
        .map(|bytes: usize| {
            let ground = if bytes == 0 || !bytes.is_multiple_of(3) {
                ": ground 4"
            } else {
                ""
            };
            let pixels = (0..bytes as u8).map(|place| 40 * place).collect();
            case(format!("{bytes} bytes{ground}"), pixels, 0, bytes / 3)
        })
        .into()
}

/// Ground 5 from both sides.
fn pixel_counts() -> Vec<Case> {
    let halves = |count: usize| runs(&[(WHITE, count / 2), (BLACK, count - count / 2)]);
    vec![
        fitting("65,535 pixels", &[RED; MOST - 1], 0),
        fitting("65,536 pixels, the most", &[BLACK; MOST], 0),
        fitting("65,536 pixels of two greys", &halves(MOST), 20),
        fitting(
            "65,536 pixels by turns",
            &[BLUE, RED, WHITE, BLACK].repeat(MOST / 4),
            0,
        ),
        fitting("65,537 pixels: ground 5", &[BLACK; MOST + 1], 0),
        fitting(
            "131,072 pixels, which are 0 in 16 bits: ground 5",
            &[BLACK; 2 * MOST],
            0,
        ),
    ]
}

/// Ground 8 from both sides.
fn closenesses() -> Vec<Case> {
    let pixels = runs(&[(BLACK, 20), (RED, 20), (WHITE, 20), (BLUE, 20)]);
    let served = (LEAST_CLOSENESS..=MOST_CLOSENESS).map(|closeness| ("every closeness", closeness));
    let refused = [
        ("closeness 21: ground 8", 21),
        ("a closeness that is 0 in 8 bits: ground 8", 1 << 8),
        ("a closeness that is 0 in 16 bits: ground 8", 1 << 16),
        ("closeness -11: ground 8", -11),
        ("the least number as closeness: ground 8", i32::MIN),
        ("the largest number as closeness: ground 8", i32::MAX),
    ];
    served
        .chain(refused)
        .map(|(what, closeness)| fitting(what, &pixels, closeness))
        .collect()
}

/// Ground 9 from both sides.
fn label_counts() -> Vec<Case> {
    let pixels = [BLACK, RED, WHITE].concat();
    let few = [
        ("no labels: ground 9", 0),
        ("a label too few: ground 9", 2),
        ("as many labels as pixels", 3),
        ("a label too many: ground 9", 4),
        ("as many labels as bytes: ground 9", 9),
    ];
    let few = few.map(|(what, places)| case(what, pixels.clone(), 0, places));
    let many = [
        ("65,536 pixels and a label too few: ground 9", MOST - 1),
        ("65,536 pixels and a label too many: ground 9", MOST + 1),
        (
            "65,536 pixels and no labels, as many in 16 bits: ground 9",
            0,
        ),
    ];
    let many = many.map(|(what, places)| case(what, vec![0; 3 * MOST], 0, places));
    few.into_iter().chain(many).collect()
}

/// A card of this many entries: with enough pixels for each, none is joined.
fn full(entries: usize, each: usize) -> Vec<Pixel> {
    let colours = full_cards::colours(entries);
    let all: Vec<(Pixel, usize)> = colours.iter().map(|&colour| (colour, each)).collect();
    runs(&all)
}

/// Around the 255 entries that were the most with labels of one byte.
fn entry_counts() -> Vec<Case> {
    let short = "256 entries and a label too few: ground 9";
    vec![
        fitting("254 entries", &full(254, 10), 0),
        fitting("255 entries", &full(255, 10), 0),
        fitting("256 entries", &full(256, 10), 0),
        fitting("257 entries", &full(257, 10), 0),
        fitting("262 entries", &full(262, 10), 0),
        fitting("255 entries at closeness 20", &full(255, 250), 20),
        fitting("256 entries at closeness 20", &full(256, 250), 20),
        fitting(
            "256 colours that a higher closeness joins",
            &full(256, 10),
            9,
        ),
        case(short, full(256, 10).concat(), 0, 2559),
    ]
}

/// Labels are written whole, whatever was lent.
fn whole_labels() -> Vec<Case> {
    let pixels = [BLACK, RED, WHITE, BLUE].repeat(20);
    let bytes = pixels.concat();
    vec![
        fitting_wide("labels lent with two bytes each", &pixels, 0),
        lent("labels lent with zeros", bytes.clone(), 0, vec![0; 80]),
        lent(
            "labels lent with ones",
            bytes.clone(),
            0,
            vec![u16::MAX; 80],
        ),
        wide("the same and a label too many: ground 9", bytes, 0, 81),
        fitting_wide("the same at closeness 21: ground 8", &pixels, 21),
    ]
}

/// Ground 11 from both sides. At the least closeness a pixel for each entry is enough.
fn many_entries() -> Vec<Case> {
    let short = "1,001 entries and a label too few: ground 9 comes first";
    vec![
        fitting_wide("999 entries", &full(999, 10), 0),
        fitting_wide("1,000 entries, the most", &full(1_000, 10), 0),
        fitting_wide("1,001 entries: ground 11", &full(1_001, 10), 0),
        fitting_wide(
            "1,001 entries of a pixel each: ground 11",
            &full(1_001, 1),
            LEAST_CLOSENESS,
        ),
        fitting_wide(
            "1,025 entries, which are 1 in 8 bits and in 10: ground 11",
            &full(1_025, 1),
            LEAST_CLOSENESS,
        ),
        fitting_wide(
            "1,001 entries at closeness 20: ground 11",
            &full(1_001, 65),
            20,
        ),
        fitting_wide(
            "1,001 colours that a higher closeness joins",
            &full(1_001, 10),
            9,
        ),
        wide(short, full(1_001, 1).concat(), LEAST_CLOSENESS, 1_000),
    ]
}

/// Every choice of two or more of the grounds 4, 5, 8 and 9, and of none.
fn grounds_at_once() -> Vec<Case> {
    let close = LEAST_CLOSENESS - 1;
    let (few, part, many) = (6, 7, 3 * MOST + 3);
    let long_part = many + 2;
    [
        (
            "grounds 4, 5, 8, 9 hold: 4 comes first",
            long_part,
            close,
            0,
        ),
        (
            "grounds 4, 5, 8 hold: 4 comes first",
            long_part,
            close,
            MOST + 1,
        ),
        ("grounds 4, 5, 9 hold: 4 comes first", long_part, 0, 1),
        ("grounds 4, 5 hold: 4 comes first", long_part, 0, MOST + 1),
        ("grounds 4, 8, 9 hold: 4 comes first", part, close, 3),
        (
            "grounds 4, 8, 9 hold, with no bytes: 4 comes first",
            0,
            close,
            1,
        ),
        ("grounds 4, 8 hold: 4 comes first", part, close, 2),
        ("grounds 4, 9 hold: 4 comes first", part, 0, 3),
        ("grounds 5, 8, 9 hold: 5 comes first", many, close, 0),
        ("grounds 5, 8 hold: 5 comes first", many, close, MOST + 1),
        ("grounds 5, 9 hold: 5 comes first", many, 0, MOST),
        ("grounds 8, 9 hold: 8 comes first", few, close, 1),
        ("no ground holds", few, 0, 2),
    ]
    .map(|(what, bytes, closeness, places)| case(what, vec![9; bytes], closeness, places))
    .into()
}

/// Small cloths of plain yarns, warp over weft.
fn weaves() -> Vec<Case> {
    let mut random = Random::new(SEED);
    let mut all = Vec::new();
    for (width, height, count) in [
        (2, 2, 2),
        (3, 5, 2),
        (8, 8, 2),
        (12, 9, 3),
        (16, 12, 4),
        (20, 20, 6),
    ] {
        for noise in [0, 3] {
            let yarns = yarns(&mut random, count);
            let cloth = woven(&mut random, width, height, &yarns, noise);
            let what =
                format!("a cloth of {width} x {height} threads, {count} yarns, noise {noise}");
            all.push(fitting(what, &cloth.pixels, 0));
        }
    }
    all
}

fn drawn() -> Vec<Case> {
    let mut random = Random::new(SEED + 1);
    let mut all = Vec::new();
    for count in [2, 9, 40, 120, 300] {
        for (name, shape) in SHAPES {
            let pixels = shape(&mut random, count);
            let closeness = if random.coin() {
                0
            } else {
                random.signed_within(LEAST_CLOSENESS, 6)
            };
            let what = format!("drawn: {name}, {} pixels", pixels.len());
            all.push(fitting(what, &pixels, closeness));
        }
    }
    all
}
