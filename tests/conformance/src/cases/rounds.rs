//! Rings that are joined past their opening, and rings whose separators show in which order they are listed.

use super::histograms::Named;
use super::modes::Rule;
use reference::calls::MOST_BINS;
use reference::turns::turned;

/// Rings on which an engine that takes runs round the ring in another way gives other separators.
pub const ROUND_RULES: &[Rule] = &[
    (
        "a run past the opening is joined: one separator is left, and it is not the opening",
        0,
        &[0, 4, 0, 0, 4],
    ),
    ("the bin of the opening is read once", -1, &[0, 1, 4, 0, 4]),
    (
        "a full turn has the bin of its separator at both ends",
        0,
        &[0, 4, 0, 0, 9],
    ),
    (
        "the opening goes and two separators stay",
        -2,
        &[2, 0, 2, 7, 0, 7, 0],
    ),
    (
        "the opening goes and two separators stay",
        1,
        &[94, 78, 144, 78, 143, 78, 78, 118, 78],
    ),
    (
        "a run round the ring that costs exactly 0 is not joined",
        2,
        &[9, 21_710, 11, 11, 32],
    ),
    (
        "one join round the ring may follow another",
        3,
        &[8, 0, 8, 0, 8, 0, 0],
    ),
    (
        "a run that ends with the mode over the opening is joined too",
        -1,
        &[85, 85, 60, 85, 60, 60, 98, 60],
    ),
    (
        "runs of three round the ring, of equals the one that starts soonest after the opening",
        -1,
        &[0, 3, 0, 7, 0, 3],
    ),
    (
        "runs of four round the ring are joined too",
        -3,
        &[0, 3, 0, 3, 0, 3, 0, 3, 3],
    ),
    (
        "equals are ordered from the opening on, not by bin number",
        0,
        &[35, 5, 17, 4, 17, 5],
    ),
    (
        "equals are ordered from the opening on, not by bin number",
        -3,
        &[12, 5, 10, 4, 10, 5],
    ),
    (
        "equals are ordered from the opening on, after a join too",
        -3,
        &[7, 3, 3, 3, 8, 2, 3, 7, 9, 3],
    ),
    (
        "equals are ordered from the opening on, after a join too",
        -3,
        &[3, 0, 1, 3, 0, 3, 3, 1, 0, 3, 1, 2],
    ),
    (
        "the cheapest run round the ring is joined, not the first that can be",
        -2,
        &[0, 3, 0, 3, 0, 0, 3, 3],
    ),
    (
        "after a join round the ring runs of two come again",
        -1,
        &[4, 0, 4, 0, 4, 0, 0, 4, 0],
    ),
    (
        "after a join round the ring runs of two come again",
        0,
        &[3, 14, 3, 14, 3, 3, 14, 3, 14],
    ),
    (
        "the line is finished before runs are taken round the ring",
        0,
        &[12, 0, 5, 0, 0, 5, 0, 12],
    ),
    (
        "a fall round the ring keeps its first peak",
        -1,
        &[7, 0, 3, 0, 4, 0, 0, 7],
    ),
    (
        "a rise round the ring keeps its last peak",
        -1,
        &[3, 3, 0, 6, 0, 3, 0, 0],
    ),
    (
        "the fall counts round the ring too if both cost the same",
        -1,
        &[6, 2, 2, 0, 2, 2, 6, 0, 7, 0],
    ),
    (
        "the peak kept round the ring need not be the higher one",
        1,
        &[14, 14, 14, 2, 14, 2, 15, 3, 2, 15, 3, 3],
    ),
    (
        "the peak kept round the ring need not be the higher one",
        2,
        &[3, 0, 8, 8, 8, 0, 0, 8, 0, 8],
    ),
    (
        "the peak kept round the ring is not looked for anew",
        -3,
        &[3, 1, 3, 0, 1, 1, 4, 1, 4, 0],
    ),
];

/// Rings on which an engine that lists the separators in another way gives another list.
pub const LIST_RULES: &[Rule] = &[
    (
        "the opening, bin 1, is no separator: listed 3, 5; an engine that lists the opening first has 1, 3, 5",
        1,
        &[94, 78, 144, 78, 143, 78, 78, 118, 78],
    ),
    (
        "listed 1, 3, 5; an engine that lists from the opening has 3, 5, 1",
        0,
        &[9, 1, 9, 0, 9, 0],
    ),
    (
        "listed 0, 3, 5; an engine that lists from the opening has 3, 5, 0",
        0,
        &[2, 50, 9, 0, 50, 3, 60],
    ),
    (
        "listed 0, 2, 4, 6; an engine that lists from the opening has 2, 4, 6, 0",
        0,
        &[1, 20, 0, 20, 0, 20, 0, 21],
    ),
    (
        "the only separator is bin 0, and the opening bin 5; an engine that lists places from the opening has 2",
        2,
        &[10, 10, 10, 10, 30, 9, 30],
    ),
    (
        "opened at bin 0, listed 0, 2, 4; an engine that lists from the lowest count up has 0, 4, 2",
        0,
        &[0, 50, 4, 50, 2, 60],
    ),
    (
        "opened at the last bin, listed 1, 3, 5; an engine that lists from the opening has 5, 1, 3",
        0,
        &[50, 3, 60, 2, 50, 0],
    ),
    (
        "the opening, bin 6, is no separator: listed 2, 8; an engine that lists from the opening has 8, 2",
        3,
        &[2, 20, 2, 2, 2, 13, 1, 20, 2, 2],
    ),
    (
        "all come before the opening, bin 8: listed 0, 4; an engine that lists places from the opening has 2, 6",
        3,
        &[2, 2, 2, 20, 2, 2, 2, 13, 1, 20],
    ),
];

/// With a closeness each.
pub fn rings() -> Vec<(Named, i32)> {
    let mut all = turned_on();
    for (bins, openings) in [(60, [0, 1, 29, 59]), (256, [0, 1, 127, 255])] {
        for opening in openings {
            let what = format!("{bins} bins, one hump on both sides of the opening, bin {opening}");
            all.push(((what, over_the_opening(bins, opening)), 0));
        }
    }
    all.extend(nothing_to_join());
    all
}

/// Which of the lowest bins is the opening depends on where the ring begins, and so does what is joined past it.
fn turned_on() -> Vec<(Named, i32)> {
    let mut all = Vec::new();
    let ring = [0, 4, 0, 0, 9];
    for by in 0..ring.len() {
        let what = format!("which of equal bins is the opening: a ring turned on by {by} bins");
        all.push(((what, turned(&ring, by)), 0));
    }
    all
}

/// Two humps opposite each other. The lowest bin, which is the opening, is a dent in the top of one of them.
fn over_the_opening(bins: usize, opening: usize) -> Vec<u32> {
    let width = bins / 6;
    let at = |bin: usize| {
        let away = bin.min(bins - bin);
        let (near, far) = (
            width.saturating_sub(away),
            width.saturating_sub(bins / 2 - away),
        );
        (4 + near.min(8) + 3 * far) as u32
    };
    let mut ring: Vec<u32> = (0..bins).map(at).collect();
    ring[0] = 3;
    turned(&ring, opening)
}

/// As many bins as there can be, with the opening in their middle and at their end.
pub fn longest_lists() -> Vec<(Named, i32)> {
    [128, MOST_BINS - 1]
        .map(|opening| {
            let lowest = opening % HUMP;
            let before = opening - HUMP;
            let what = format!(
                "256 bins opened at bin {opening}, listed from bin {lowest} up; \
                an engine that lists from the opening ends with bin {before}"
            );
            ((what, four_humps(opening)), 0)
        })
        .into()
}

/// The bins of each of the four humps.
const HUMP: usize = MOST_BINS / 4;

/// With a valley before each, the lowest of them at the opening.
fn four_humps(opening: usize) -> Vec<u32> {
    let at = |bin: usize| {
        let place = bin % HUMP;
        (2 + place.min(HUMP - place)) as u32
    };
    let mut ring: Vec<u32> = (0..MOST_BINS).map(at).collect();
    ring[0] -= 1;
    turned(&ring, opening)
}

/// A ring of two or three bins has one mode, and so has a flat one, which neither closeness changes.
fn nothing_to_join() -> Vec<(Named, i32)> {
    let mut all = Vec::new();
    for ring in [
        vec![3, 9],
        vec![9, 3],
        vec![1, 5, 2],
        vec![4, 0, 4],
        vec![0, 4, 0],
    ] {
        let what = format!("a ring of {} bins has one mode", ring.len());
        all.extend([-10, 20].map(|closeness| ((what.clone(), ring.clone()), closeness)));
    }
    for (bins, count) in [(2, 0), (3, 7), (60, 1), (256, 256)] {
        let what = format!("a flat ring of {bins} bins has one mode");
        all.extend([-10, 20].map(|closeness| ((what.clone(), vec![count; bins]), closeness)));
    }
    all
}
