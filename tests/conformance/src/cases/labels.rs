//! Labels of one byte each, to be widened.

use super::{unwritten_wide_labels, Case};
use crate::calls::Call;
use cloths::random::Random;

const SEED: u64 = 109;
/// The most pixels of an image.
const MOST: usize = 65_536;

pub fn cases() -> Vec<Case> {
    let mut all = samples();
    all.extend(as_lent());
    all.extend(lengths());
    all.extend(other_lengths());
    all.extend(drawn());
    all
}

/// Labels as lent, as many as there are places.
fn lent(what: impl Into<String>, narrow: Vec<u8>, labels: Vec<u16>) -> Case {
    Case::new(what, Call::WidenLabels { narrow, labels })
}

fn case(what: impl Into<String>, narrow: Vec<u8>, places: usize) -> Case {
    lent(what, narrow, unwritten_wide_labels(places))
}

/// So many labels: these, over and over.
fn over_and_over(labels: &[u8], count: usize) -> Vec<u8> {
    labels.iter().copied().cycle().take(count).collect()
}

/// With as many places as labels.
fn fitting(what: impl Into<String>, narrow: Vec<u8>) -> Case {
    let places = narrow.len();
    case(what, narrow, places)
}

fn samples() -> Vec<Case> {
    vec![
        fitting(
            "the labels of the first sample, black beside red",
            vec![0, 1],
        ),
        fitting("no labels and no places", vec![]),
        fitting("the smallest label", vec![0]),
        fitting("the largest label", vec![255]),
        fitting(
            "the largest with a sign in front, and the next",
            vec![127, 128],
        ),
        fitting("each place keeps its label", vec![255, 0, 254, 1, 255]),
        fitting("each label once", (0..=255).collect()),
        fitting("each label once, backwards", (0..=255).rev().collect()),
        fitting("one label over and over", vec![255; 300]),
        fitting("no label but 0", vec![0; 300]),
    ]
}

/// What is lent makes no difference, and every bit of it is overwritten.
fn as_lent() -> Vec<Case> {
    let narrow = vec![0, 1, 200, 255];
    let all = [
        ("lent with zeros", [0; 4]),
        ("lent with ones in every bit", [u16::MAX; 4]),
        ("lent as they will be", [0, 1, 200, 255]),
        (
            "lent with only the other byte wrong",
            [0x100, 0x101, 0x2c8, 0xffff],
        ),
        (
            "lent with the two bytes the other way round",
            [0, 0x100, 0xc800, 0xff00],
        ),
        (
            "lent with labels of a card of 1,000 entries",
            [999, 998, 256, 257],
        ),
    ];
    all.map(|(what, labels)| lent(what, narrow.clone(), labels.into()))
        .into()
}

/// Around the lengths of words and of rows of words, up to the pixels of an image and past them.
fn lengths() -> Vec<Case> {
    let mut random = Random::new(SEED);
    let mut all = Vec::new();
    for around in [4, 8, 16, 32, 64] {
        for count in [around - 1, around, around + 1] {
            let narrow = (0..count).map(|_| random.bits() as u8).collect();
            all.push(fitting(format!("{count} labels"), narrow));
        }
    }
    let many = |count: usize| over_and_over(&[7, 255, 0, 128], count);
    all.extend([
        fitting("65,535 labels", many(MOST - 1)),
        fitting(
            "65,536 labels, as many as an image may have pixels",
            many(MOST),
        ),
        fitting(
            "65,537 labels: no ground concerns their number",
            many(MOST + 1),
        ),
        fitting("131,072 labels", many(2 * MOST)),
    ]);
    all
}

/// Ground 9 from both sides.
fn other_lengths() -> Vec<Case> {
    [
        ("no labels and a place: ground 9", 0, 1),
        ("a label and no place: ground 9", 1, 0),
        ("two labels and three places: ground 9", 2, 3),
        ("three labels and two places: ground 9", 3, 2),
        ("three labels and three places", 3, 3),
        (
            "a place for each byte of the labels that they become: ground 9",
            5,
            10,
        ),
        ("half as many places as labels: ground 9", 10, 5),
        ("255 labels and 256 places: ground 9", 255, 256),
        ("256 labels and 255 places: ground 9", 256, 255),
        (
            "3 labels and 259 places, as many in 8 bits: ground 9",
            3,
            259,
        ),
        (
            "256 labels and no places, as many in 8 bits: ground 9",
            256,
            0,
        ),
        (
            "no labels and 256 places, as many in 8 bits: ground 9",
            0,
            256,
        ),
        (
            "65,536 labels and a place too few: ground 9",
            MOST,
            MOST - 1,
        ),
        (
            "65,536 labels and a place too many: ground 9",
            MOST,
            MOST + 1,
        ),
        (
            "65,536 labels and no places, as many in 16 bits: ground 9",
            MOST,
            0,
        ),
        (
            "no labels and 65,536 places, as many in 16 bits: ground 9",
            0,
            MOST,
        ),
        (
            "65,541 labels and 5 places, as many in 16 bits: ground 9",
            MOST + 5,
            5,
        ),
    ]
    .map(|(what, count, places)| case(what, over_and_over(&[1, 2, 3], count), places))
    .into()
}

fn drawn() -> Vec<Case> {
    let mut random = Random::new(SEED + 1);
    (0..40)
        .map(|index| {
            let count = 1 + random.below(60);
            let narrow: Vec<u8> = (0..count).map(|_| random.bits() as u8).collect();
            let places = if index % 4 == 3 {
                random.below(70)
            } else {
                count
            };
            case(
                format!("drawn: {count} labels, {places} places"),
                narrow,
                places,
            )
        })
        .collect()
}
