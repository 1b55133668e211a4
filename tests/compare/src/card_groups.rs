//! The named groups of swatches for the card call, each of which is one test.

use crate::card_shapes::{self, CardShape, SHAPES};
use crate::closenesses;
use crate::comparison::{Failure, Tally};
use crate::entry_counts::EntryCounts;
use crate::joined_cards::{self, shuffled, JoinedCardShape};
use crate::joined_shapes;
use crate::least;
use crate::round_joins::Least;
use cloths::full_cards;
use cloths::random::Random;
use reference::calls::{LEAST_CLOSENESS, MOST_CLOSENESS, MOST_PIXELS};
use reference::cards::Pixel;

/// Pixel bytes, the closeness, and how many labels are lent.
pub struct CardCase {
    pub bytes: Vec<u8>,
    pub closeness: i32,
    pub places: usize,
}

/// Where a group's swatches come from.
pub enum CardSource {
    /// A list, the same length in every run.
    List(fn(&mut Random) -> Vec<CardCase>),
    /// Drawn from one shape with at most this many pixels; how many are drawn, in thousandths of the count.
    Draw(CardShape, usize, usize),
    /// Drawn from one shape made for joins round the ring of hues; how many, in thousandths of the count.
    JoinedDraw(JoinedCardShape, usize, Least),
    /// A list made for numbers of entries, and how many cards of which numbers it has to have.
    Full(fn(&mut Random) -> Vec<CardCase>, EntryCounts),
}

use CardSource::{Draw, Full, JoinedDraw, List};

pub const CARDS: [(&str, CardSource); 26] = [
    ("samples", List(samples)),
    ("grounds", List(grounds)),
    ("one pixel", List(one_pixel)),
    ("two pixels", List(two_pixels)),
    ("all equal", List(all_equal)),
    ("every closeness -12 to 22", List(every_closeness)),
    ("254 to 257 entries", Full(narrow_limit, LEAST_OF_257)),
    (
        "around 255 entries",
        Full(around_the_narrow_limit, LEAST_AROUND_255),
    ),
    ("up to 65,536 pixels", List(large)),
    ("few pixels", Draw(any, 40, 5)),
    ("noise", Draw(card_shapes::noise, 2000, 3)),
    ("yarns with noise", Draw(card_shapes::clusters, 4000, 12)),
    ("cloths", Draw(card_shapes::cloth, 4096, 6)),
    ("greys only", Draw(card_shapes::greys, 3000, 6)),
    ("colours only", Draw(card_shapes::colours, 3000, 6)),
    ("tints", Draw(card_shapes::tints, 3000, 4)),
    (
        "hues over the seam",
        Draw(card_shapes::over_the_seam, 2000, 4),
    ),
    ("gradients", Draw(card_shapes::gradients, 3000, 4)),
    ("nearly grey", Draw(card_shapes::nearly_grey, 2000, 4)),
    ("few levels", Draw(card_shapes::few_levels, 4000, 2)),
    (
        "hues of rings opened inside a hump",
        JoinedDraw(joined_cards::hues_of_a_ring, 6, LEAST_OF_RINGS),
    ),
    (
        "one hue left out",
        JoinedDraw(joined_cards::hue_left_out, 6, LEAST_OF_HUES_LEFT_OUT),
    ),
    ("511 to 1,391 entries", Full(limit, LEAST_OF_1_391)),
    (
        "around 1,000 entries",
        Full(around_the_limit, LEAST_AROUND_1_000),
    ),
    (
        "noise of many entries",
        Full(noise_of_many_entries, LEAST_OF_NOISE),
    ),
    (
        "any number of entries",
        Full(any_number_of_entries, LEAST_OF_ANY_NUMBER),
    ),
];

const LEAST_OF_RINGS: Least = Least {
    joined: 450,
    again: 20,
    divided: 200,
    long: 2,
    rotated: 15,
};
const LEAST_OF_HUES_LEFT_OUT: Least = Least {
    joined: 500,
    again: 0,
    divided: 400,
    long: 0,
    rotated: 0,
};

const LEAST_OF_257: EntryCounts = EntryCounts::of([10, 10, 0, 0, 0]);
const LEAST_OF_1_391: EntryCounts = EntryCounts::of([0, 30, 15, 5, 30]);
// The other numbers are well below what the run without arguments has, so that another seed does not fall below by chance.
const LEAST_AROUND_255: EntryCounts = EntryCounts::of([15, 5, 0, 0, 0]);
const LEAST_AROUND_1_000: EntryCounts = EntryCounts::of([0, 10, 10, 0, 10]);
const LEAST_OF_NOISE: EntryCounts = EntryCounts::of([0, 15, 10, 0, 5]);
const LEAST_OF_ANY_NUMBER: EntryCounts = EntryCounts::of([3, 15, 5, 0, 5]);

impl CardSource {
    /// Hands each case on, until one is refused.
    pub fn each<E>(
        &self,
        random: &mut Random,
        count: usize,
        mut visit: impl FnMut(&CardCase) -> Result<(), E>,
    ) -> Result<(), E> {
        match self {
            List(list) | Full(list, _) => list(random).iter().try_for_each(visit),
            Draw(shape, most, share) => {
                (0..count * share / 1000).try_for_each(|_| visit(&draw(random, *shape, *most)))
            }
            JoinedDraw(shape, share, _) => {
                (0..count * share / 1000).try_for_each(|_| visit(&draw_joined(random, *shape)))
            }
        }
    }

    /// Whether there were enough joins round the ring of hues and enough hue modes not in the order of bin numbers, or enough
    /// cards of the numbers of entries that the group is made for.
    pub fn check(&self, tally: &Tally) -> Result<(), Failure> {
        match self {
            List(_) | Draw(..) => Ok(()),
            JoinedDraw(_, _, least) => least.check(&tally.round),
            Full(_, least) => least::reached(tally.entries.named(), least.named()),
        }
    }
}

fn draw_joined(random: &mut Random, shape: JoinedCardShape) -> CardCase {
    let pixels = shape(random);
    let hues = joined_cards::hues(&pixels);
    let closeness = joined_shapes::near_joining_closeness(random, &hues);
    fitting(&pixels, closeness)
}

/// Small swatches more often than large ones, low closenesses more often than high ones; now and then one that is
/// turned down.
fn draw(random: &mut Random, shape: CardShape, most: usize) -> CardCase {
    let most = (most >> random.below(6)).max(1);
    let count = 1 + random.below(most);
    let pixels = shape(random, count);
    let top = if random.coin() { 3 } else { MOST_CLOSENESS };
    let mut case = fitting(&pixels, random.signed_within(LEAST_CLOSENESS, top));
    match random.below(100) {
        0 => {
            case.closeness = closenesses::AT_THE_ENDS[random.below(closenesses::AT_THE_ENDS.len())]
        }
        1 => case.places = random.below(2 * case.places + 2),
        2 => case.bytes.truncate(random.below(case.bytes.len())),
        _ => {}
    }
    case
}

fn any(random: &mut Random, pixels: usize) -> Vec<Pixel> {
    SHAPES[random.below(SHAPES.len())](random, pixels)
}

fn fitting(pixels: &[Pixel], closeness: i32) -> CardCase {
    CardCase {
        bytes: pixels.concat(),
        closeness,
        places: pixels.len(),
    }
}

fn samples(_: &mut Random) -> Vec<CardCase> {
    let swatches: [&[Pixel]; 8] = [
        &[[0, 0, 0], [255, 0, 0]],
        &[[255, 0, 0], [0, 0, 0]],
        &[[13, 9, 0]],
        &[[13, 10, 0]],
        &[[13, 9, 0], [13, 10, 0]],
        &[[0, 255, 0], [0, 0, 255], [255, 0, 0]],
        &[[100, 0, 200], [100, 200, 0]],
        &[[0, 0, 0], [255, 255, 255]],
    ];
    let mut cases = Vec::new();
    for closeness in closenesses::every() {
        for swatch in swatches {
            for times in [1, 20] {
                cases.push(fitting(&swatch.repeat(times), closeness));
            }
        }
    }
    cases
}

/// Each of the grounds 4, 5, 8 and 9 with and without each of the others.
fn grounds(_: &mut Random) -> Vec<CardCase> {
    let most = 3 * MOST_PIXELS as usize;
    let mut cases = Vec::new();
    for bytes in [
        0,
        1,
        2,
        3,
        4,
        5,
        6,
        300,
        most - 1,
        most,
        most + 1,
        most + 2,
        most + 3,
        2 * most,
    ] {
        for closeness in closenesses::AT_THE_ENDS {
            let pixels = bytes / 3;
            for places in [
                0,
                pixels / 2,
                pixels.saturating_sub(1),
                pixels,
                pixels + 1,
                2 * pixels,
                bytes,
            ] {
                cases.push(CardCase {
                    bytes: vec![closeness as u8; bytes],
                    closeness,
                    places,
                });
            }
        }
    }
    cases
}

fn one_pixel(random: &mut Random) -> Vec<CardCase> {
    let corners = (0..8).map(|code| [4, 2, 1].map(|bit| if code & bit > 0 { 255 } else { 0 }));
    let mut pixels: Vec<Pixel> = corners.collect();
    pixels.extend(card_shapes::noise(random, 200));
    pixels.extend(card_shapes::nearly_grey(random, 100));
    (pixels.iter().enumerate())
        .map(|(place, &pixel)| fitting(&[pixel], closenesses::in_turn(place)))
        .collect()
}

fn two_pixels(random: &mut Random) -> Vec<CardCase> {
    (0..300)
        .map(|index| fitting(&any(random, 2), closenesses::in_turn(index)))
        .collect()
}

fn all_equal(random: &mut Random) -> Vec<CardCase> {
    let counts = (1..=100).chain([1000, 16_383, 16_384, 65_535, 65_536]);
    counts
        .map(|pixels| {
            let shape = [card_shapes::all_equal, same_grey][pixels % 2];
            fitting(&shape(random, pixels), closenesses::in_turn(pixels))
        })
        .collect()
}

fn same_grey(random: &mut Random, pixels: usize) -> Vec<Pixel> {
    vec![card_shapes::greys(random, 1)[0]; pixels]
}

fn every_closeness(random: &mut Random) -> Vec<CardCase> {
    (0..22)
        .flat_map(|index| {
            let count = 100 + random.below(900);
            let pixels = SHAPES[index % SHAPES.len()](random, count);
            closenesses::every().map(move |closeness| fitting(&pixels, closeness))
        })
        .collect()
}

/// So many pixels for each entry that none joins at this closeness.
const ENOUGH: [(usize, i32); 5] = [
    (1, LEAST_CLOSENESS),
    (10, 0),
    (64, 0),
    (64, 10),
    (250, MOST_CLOSENESS),
];

/// On both sides of the 255 entries that were the most with labels of one byte.
fn narrow_limit(_: &mut Random) -> Vec<CardCase> {
    full([254, 255, 256, 257])
}

/// 1,000 are served, 1,001 are not. Of the larger ones some look small in 8 or in 10 bits.
fn limit(_: &mut Random) -> Vec<CardCase> {
    let most = full_cards::MOST;
    full([
        511, 512, 513, 768, 999, 1_000, 1_001, 1_002, 1_024, 1_025, 1_256, most,
    ])
}

/// Cards of these numbers of entries, at each closeness with enough pixels, as far as an image can have so many.
fn full<const N: usize>(numbers: [usize; N]) -> Vec<CardCase> {
    let mut cases = Vec::new();
    for (each, closeness) in ENOUGH {
        for entries in numbers {
            let each = each.min(MOST_PIXELS as usize / entries);
            cases.push(fitting(&full_cards::pixels(entries, each), closeness));
        }
    }
    cases
}

fn around_the_narrow_limit(random: &mut Random) -> Vec<CardCase> {
    around(random, 240, 262)
}

fn around_the_limit(random: &mut Random) -> Vec<CardCase> {
    around(random, 970, 1_040)
}

fn any_number_of_entries(random: &mut Random) -> Vec<CardCase> {
    let mut cases = around(random, 4, full_cards::MOST as u32);
    for case in &mut cases {
        let pixels = case
            .bytes
            .chunks_exact(3)
            .map(|rgb| [rgb[0], rgb[1], rgb[2]]);
        case.bytes = shuffled(random, pixels.collect()).concat();
    }
    cases
}

/// As many pixels as it takes for nothing to join, a few more or less.
fn around(random: &mut Random, fewest: u32, most: u32) -> Vec<CardCase> {
    (0..60)
        .map(|_| {
            let entries = random.within(fewest, most) as usize;
            let closeness = closenesses::served(random);
            let each = 7 + random.below(8) + 2 * closeness.max(0) as usize;
            let each = each.min(MOST_PIXELS as usize / entries);
            let mut pixels = full_cards::pixels(entries, each);
            for _ in 0..random.below(20) {
                pixels.swap_remove(random.below(pixels.len()));
            }
            fitting(&pixels, closeness)
        })
        .collect()
}

/// Any pixels, at closenesses that keep most of them apart: the entries are of no pattern.
fn noise_of_many_entries(random: &mut Random) -> Vec<CardCase> {
    (0..50)
        .map(|_| {
            let count = random.within(200, 3_200) as usize;
            let closeness = random.signed_within(LEAST_CLOSENESS, LEAST_CLOSENESS + 1);
            fitting(&card_shapes::noise(random, count), closeness)
        })
        .collect()
}

fn large(random: &mut Random) -> Vec<CardCase> {
    (0..44)
        .map(|index| {
            let count = match index / SHAPES.len() {
                0 => 65_536,
                1 => 65_535,
                _ => random.within(16_384, 65_536) as usize,
            };
            let closeness = if random.coin() {
                0
            } else {
                closenesses::served(random)
            };
            fitting(&SHAPES[index % SHAPES.len()](random, count), closeness)
        })
        .collect()
}
