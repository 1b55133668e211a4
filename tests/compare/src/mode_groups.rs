//! The named groups of lines and rings, each of which is one test.

use crate::closenesses;
use crate::joined_shapes::{self, JOINED_SAMPLES, JOINED_SHAPES};
use crate::mode_shapes;
use crate::mode_ties::MODE_TIES;
use crate::round_joins::Least;
use crate::shapes::{self, Shape, SHAPES};
use cloths::random::Random;
use reference::calls::{LEAST_CLOSENESS, MOST_BINS, MOST_CLOSENESS};

/// A histogram, the closeness, and how many places are lent for its separators.
pub struct ModesCase {
    pub histogram: Vec<u32>,
    pub closeness: i32,
    pub places: usize,
}

/// Where a group's histograms come from.
pub enum ModesSource {
    /// A list, the same length in every run.
    List(fn(&mut Random) -> Vec<ModesCase>),
    /// Drawn from one shape; how many, in hundredths of the count.
    Draw(Shape, usize),
    /// A list of rings made for joins round the ring.
    JoinedList(fn(&mut Random) -> Vec<ModesCase>, Least),
    /// Drawn from one shape made for joins round the ring; how many, in hundredths of the count.
    JoinedDraw(Shape, usize, Least),
    /// Drawn from one shape made for modes that are not in the order of bin numbers; how many, in hundredths of the count.
    RotatedDraw(Shape, usize, Least),
}

use ModesSource::{Draw, JoinedDraw, JoinedList, List, RotatedDraw};

/// The groups that lines and rings share.
pub const BOTH: [(&str, ModesSource); 11] = [
    ("samples", List(samples)),
    ("every small histogram", List(every_small)),
    ("two bins", List(two_bins)),
    ("all zero and all equal", List(all_equal)),
    ("cost 0 and next to it", List(ties)),
    ("grounds", List(grounds)),
    ("places of the list", List(places)),
    ("every closeness -12 to 22", List(every_closeness)),
    ("256 and 257 bins", List(longest)),
    ("cloths of 42, 52 and 60 bins", List(cloths)),
    ("a bar around 0", List(around_a_bar_of_0)),
];

pub const LINES: [(&str, ModesSource); 11] = [
    ("few levels", Draw(mode_shapes::few_levels, 15)),
    ("periods", Draw(mode_shapes::periods, 10)),
    ("noise", Draw(shapes::noise, 15)),
    ("sparse", Draw(shapes::sparse, 8)),
    ("plateaus", Draw(shapes::plateaus, 8)),
    ("equal means", Draw(shapes::equal_means, 6)),
    ("spikes", Draw(shapes::spikes, 4)),
    ("alternating", Draw(shapes::alternating, 6)),
    ("humps", Draw(shapes::hump, 4)),
    ("sums around 65,536", Draw(shapes::near_the_limit, 3)),
    ("huge counts", Draw(shapes::huge, 1)),
];

pub const RINGS: [(&str, ModesSource); 18] = [
    ("lowest bin repeated", Draw(mode_shapes::lowest_repeated, 6)),
    (
        "flat lowest over the seam",
        Draw(mode_shapes::lowest_over_the_seam, 6),
    ),
    (
        "opened away from 0",
        RotatedDraw(mode_shapes::turned, 6, LEAST_OF_TURNED),
    ),
    ("few levels", Draw(mode_shapes::few_levels, 4)),
    ("noise", Draw(shapes::noise, 3)),
    ("sparse", Draw(shapes::sparse, 2)),
    ("plateaus", Draw(shapes::plateaus, 2)),
    ("alternating", Draw(shapes::alternating, 2)),
    ("sums around 65,536", Draw(shapes::near_the_limit, 1)),
    ("huge counts", Draw(shapes::huge, 1)),
    (
        "flat humps over the opening",
        JoinedDraw(joined_shapes::flat_humps, 20, LEAST_OF_FLAT_HUMPS),
    ),
    (
        "sloping humps over the opening",
        JoinedDraw(joined_shapes::sloping_humps, 20, LEAST_OF_SLOPING_HUMPS),
    ),
    (
        "spikes on both sides of the opening",
        JoinedDraw(joined_shapes::spikes_in_a_row, 20, LEAST_OF_SPIKES),
    ),
    (
        "few levels, opened inside a hump",
        JoinedDraw(joined_shapes::few_levels, 20, LEAST_OF_FEW_LEVELS),
    ),
    (
        "opened inside a hump, every closeness -12 to 22",
        JoinedList(joined_every_closeness, LEAST_AT_EVERY_CLOSENESS),
    ),
    (
        "opened inside a hump, 59 to 61, 255 and 256 bins",
        JoinedList(joined_longest, LEAST_OF_THE_LONGEST),
    ),
    (
        "mirror images, opened inside a hump",
        JoinedDraw(joined_shapes::mirror_images, 20, LEAST_OF_MIRROR_IMAGES),
    ),
    (
        "samples joined round the ring",
        JoinedList(joined_samples, LEAST_OF_SAMPLES),
    ),
];

// Well below what the run without arguments has, so that another seed does not fall below by chance.
const LEAST_OF_TURNED: Least = Least {
    joined: 0,
    again: 0,
    divided: 0,
    long: 0,
    rotated: 75,
};
const LEAST_OF_FLAT_HUMPS: Least = Least {
    joined: 300,
    again: 15,
    divided: 100,
    long: 10,
    rotated: 20,
};
const LEAST_OF_SLOPING_HUMPS: Least = Least {
    joined: 200,
    again: 10,
    divided: 50,
    long: 12,
    rotated: 14,
};
const LEAST_OF_SPIKES: Least = Least {
    joined: 400,
    again: 60,
    divided: 30,
    long: 15,
    rotated: 0,
};
const LEAST_OF_FEW_LEVELS: Least = Least {
    joined: 300,
    again: 5,
    divided: 20,
    long: 2,
    rotated: 3,
};
const LEAST_OF_MIRROR_IMAGES: Least = Least {
    joined: 120,
    again: 10,
    divided: 25,
    long: 5,
    rotated: 30,
};
const LEAST_OF_SAMPLES: Least = Least {
    joined: 200,
    again: 50,
    divided: 50,
    long: 20,
    rotated: 80,
};
const LEAST_AT_EVERY_CLOSENESS: Least = Least {
    joined: 200,
    again: 15,
    divided: 100,
    long: 0,
    rotated: 50,
};
const LEAST_OF_THE_LONGEST: Least = Least {
    joined: 450,
    again: 30,
    divided: 250,
    long: 2,
    rotated: 50,
};

impl ModesSource {
    pub fn cases(&self, random: &mut Random, count: usize) -> Vec<ModesCase> {
        match self {
            List(list) | JoinedList(list, _) => list(random),
            Draw(shape, share) | RotatedDraw(shape, share, _) => {
                draw(random, count * share / 100, *shape)
            }
            JoinedDraw(shape, share, _) => draw_joined(random, count * share / 100, *shape),
        }
    }

    /// How many joins round the ring, and modes not in the order of bin numbers, the group is to have.
    pub fn least(&self) -> Option<&Least> {
        match self {
            List(_) | Draw(..) => None,
            JoinedList(_, least) | JoinedDraw(_, _, least) | RotatedDraw(_, _, least) => {
                Some(least)
            }
        }
    }
}

fn draw_joined(random: &mut Random, count: usize, shape: Shape) -> Vec<ModesCase> {
    (0..count)
        .map(|_| {
            let bins = joined_shapes::bins(random);
            joined(random, shape, bins)
        })
        .collect()
}

fn joined(random: &mut Random, shape: Shape, bins: usize) -> ModesCase {
    let ring = shape(random, bins);
    let closeness = joined_shapes::near_joining_closeness(random, &ring);
    fitting(ring, closeness)
}

fn draw(random: &mut Random, count: usize, shape: Shape) -> Vec<ModesCase> {
    (0..count)
        .map(|_| {
            let bins = mode_shapes::bins(random);
            let histogram = shape(random, bins);
            let closeness = closenesses::mostly_low(random);
            let places = match random.below(20) {
                0 => random.below(bins),
                1..=9 => bins,
                10..=18 => bins + random.below(5),
                _ => bins + random.below(400),
            };
            ModesCase {
                histogram,
                closeness,
                places,
            }
        })
        .collect()
}

fn fitting(histogram: Vec<u32>, closeness: i32) -> ModesCase {
    let places = histogram.len();
    ModesCase {
        histogram,
        closeness,
        places,
    }
}

fn samples(_: &mut Random) -> Vec<ModesCase> {
    let histograms: [&[u32]; 8] = [
        &[0, 1, 0, 1, 0],
        &[0, 20, 0, 20, 0],
        &[0, 20, 0, 20],
        &[20, 0, 20, 0],
        &[65_536, 0],
        &[65_535, 1],
        &[65_536, 1],
        &[0, 0, 0, 0],
    ];
    histograms
        .iter()
        .flat_map(|histogram| {
            closenesses::every().map(|closeness| fitting(histogram.to_vec(), closeness))
        })
        .collect()
}

/// Every histogram of 2 to 5 bins with four levels, of 6 and 7 bins with three, of 8 to 11 bins with two.
fn every_small(_: &mut Random) -> Vec<ModesCase> {
    let mut cases = Vec::new();
    let levels: [(u32, &[u32]); 10] = [
        (2, &[0, 1, 5, 20]),
        (3, &[0, 1, 5, 20]),
        (4, &[0, 1, 5, 20]),
        (5, &[0, 1, 5, 20]),
        (6, &[0, 3, 9]),
        (7, &[0, 3, 9]),
        (8, &[0, 9]),
        (9, &[0, 9]),
        (10, &[0, 9]),
        (11, &[0, 9]),
    ];
    for (bins, levels) in levels {
        for code in 0..levels.len().pow(bins) {
            let digit = |bin| code / levels.len().pow(bin) % levels.len();
            let histogram: Vec<u32> = (0..bins).map(|bin| levels[digit(bin)]).collect();
            for closeness in [-2, 0, 2] {
                cases.push(fitting(histogram.clone(), closeness));
            }
        }
    }
    cases
}

fn two_bins(_: &mut Random) -> Vec<ModesCase> {
    let mut cases = Vec::new();
    for left in 0..=30 {
        for right in 0..=30 {
            cases.push(fitting(vec![left, right], ((left + right) % 5) as i32 - 2));
        }
    }
    for left in [0, 1, 2, 32_767, 32_768, 32_769, 65_535, 65_536] {
        for sum in 65_535..=65_537 {
            cases.push(fitting(vec![left, u32::max(sum, left) - left], 0));
        }
    }
    cases
}

fn all_equal(_: &mut Random) -> Vec<ModesCase> {
    let mut cases = Vec::new();
    for bins in (2..=40).chain([60, 128, 255, MOST_BINS]) {
        for count in [0, 1, 7, 65_536 / bins as u32] {
            for closeness in [LEAST_CLOSENESS, 0, MOST_CLOSENESS] {
                cases.push(fitting(vec![count; bins], closeness));
            }
        }
    }
    cases
}

/// At the closeness of the tie, one below and one above; mirrored; and turned on, for the rings.
fn ties(_: &mut Random) -> Vec<ModesCase> {
    let mut cases = Vec::new();
    for &(_, closeness, line) in MODE_TIES {
        for closeness in closeness - 1..=closeness + 1 {
            let mut histogram = line.to_vec();
            cases.push(fitting(histogram.clone(), closeness));
            histogram.reverse();
            for _ in 0..histogram.len() {
                histogram.rotate_left(1);
                cases.push(fitting(histogram.clone(), closeness));
            }
        }
    }
    cases
}

/// Each of the four grounds with and without each of the others.
fn grounds(_: &mut Random) -> Vec<ModesCase> {
    let mut cases = Vec::new();
    for bins in [0, 1, 2, 5, MOST_BINS, MOST_BINS + 1, 300] {
        for last in [0, 1, 65_536, 65_537, u32::MAX] {
            for closeness in closenesses::AT_THE_ENDS {
                for places in [0, bins.saturating_sub(1), bins, bins + 1] {
                    let mut histogram = vec![0; bins];
                    if let Some(bin) = histogram.last_mut() {
                        *bin = last;
                    }
                    cases.push(ModesCase {
                        histogram,
                        closeness,
                        places,
                    });
                }
            }
        }
    }
    cases
}

fn places(random: &mut Random) -> Vec<ModesCase> {
    let mut cases = Vec::new();
    for index in 0..100 {
        let bins = 2 + random.below(11);
        let histogram = SHAPES[index % SHAPES.len()](random, bins);
        for places in (0..=bins + 3).chain([MOST_BINS, MOST_BINS + 1, 1000]) {
            cases.push(ModesCase {
                histogram: histogram.clone(),
                closeness: 0,
                places,
            });
        }
    }
    cases
}

fn every_closeness(random: &mut Random) -> Vec<ModesCase> {
    (0..100)
        .flat_map(|index| {
            let bins = 4 + random.below(11);
            let histogram = SHAPES[index % SHAPES.len()](random, bins);
            closenesses::every().map(move |closeness| fitting(histogram.clone(), closeness))
        })
        .collect()
}

/// The reference weighs every part of every run of segments, so that these have few segments; one line that has as
/// many as there can be is joined pair by pair.
fn longest(random: &mut Random) -> Vec<ModesCase> {
    let mut cases = Vec::new();
    for bins in [MOST_BINS - 1, MOST_BINS, MOST_BINS + 1] {
        let mut spike = vec![0; bins];
        spike[random.below(bins)] = 65_536;
        let rising: Vec<u32> = (0..bins as u32).map(|bin| bin / 2).collect();
        let falling = rising.iter().rev().copied().collect();
        for histogram in [vec![255; bins], spike, rising, falling] {
            cases.push(fitting(histogram, 0));
        }
        for _ in 0..20 {
            let humps = 1 + random.below(3);
            let closeness = closenesses::served(random);
            cases.push(fitting(
                mode_shapes::smooth_humps(random, bins, humps),
                closeness,
            ));
        }
    }
    let alternating: Vec<u32> = (0..MOST_BINS as u32).map(|bin| bin % 2).collect();
    cases.push(fitting(alternating, MOST_CLOSENESS));
    cases
}

fn cloths(random: &mut Random) -> Vec<ModesCase> {
    (0..400)
        .map(|index| {
            let bins = [42, 52, 60][index % 3];
            let closeness = if random.coin() {
                0
            } else {
                closenesses::served(random)
            };
            fitting(mode_shapes::cloth(random, bins), closeness)
        })
        .collect()
}

/// At the least closeness the bar of a stretch of 44 bins is just below 0, that of 45 just above. Humps all alike, hardly
/// higher than the bins between them, join once the bar is a little above 0: here from 46 bins on.
fn around_a_bar_of_0(_: &mut Random) -> Vec<ModesCase> {
    let mut cases = Vec::new();
    for bins in 40..=56 {
        for closeness in LEAST_CLOSENESS..LEAST_CLOSENESS + 3 {
            let ripple = (0..bins).map(|bin| 10 + bin % 2).collect();
            cases.push(fitting(ripple, closeness));
        }
    }
    cases
}

/// Mirrored and turned on, at their closeness, one below and one above.
fn joined_samples(_: &mut Random) -> Vec<ModesCase> {
    let mut cases = Vec::new();
    for (closeness, ring) in JOINED_SAMPLES {
        let mut mirrored = ring.to_vec();
        mirrored.reverse();
        for mut ring in [ring.to_vec(), mirrored] {
            for _ in 0..ring.len() {
                ring.rotate_left(1);
                let closenesses = closeness - 1..=closeness + 1;
                cases.extend(closenesses.map(|closeness| fitting(ring.clone(), closeness)));
            }
        }
    }
    cases
}

/// Some rings at every closeness, and for each closeness rings whose dip is just light enough there. They are as long as
/// a ring of hues: at the least closeness a bar is above 0 from 45 bins on only.
fn joined_every_closeness(random: &mut Random) -> Vec<ModesCase> {
    let mut cases = Vec::new();
    for shape in JOINED_SHAPES {
        for bins in [18, 60].repeat(3) {
            let ring = shape(random, bins);
            cases.extend(closenesses::every().map(|closeness| fitting(ring.clone(), closeness)));
        }
        for closeness in LEAST_CLOSENESS..=MOST_CLOSENESS {
            cases.extend((0..3).map(|_| joined_at(random, shape, closeness)));
        }
    }
    cases
}

/// Of some rings of 60 bins the first whose dip is just light enough at this closeness, or else the last.
fn joined_at(random: &mut Random, shape: Shape, closeness: i32) -> ModesCase {
    const TRIES: usize = 400;
    let mut ring = shape(random, 60);
    for _ in 1..TRIES {
        if joined_shapes::joining_closeness(&ring) == closeness {
            break;
        }
        ring = shape(random, 60);
    }
    fitting(ring, closeness)
}

/// More of those as long as a ring of hues than of the longest, which take the reference a tenth of a second each.
fn joined_longest(random: &mut Random) -> Vec<ModesCase> {
    let mut cases = Vec::new();
    for (bins, count) in [
        (59, 120),
        (60, 360),
        (61, 120),
        (MOST_BINS - 1, 24),
        (MOST_BINS, 24),
    ] {
        for index in 0..count {
            cases.push(joined(
                random,
                JOINED_SHAPES[index % JOINED_SHAPES.len()],
                bins,
            ));
        }
    }
    cases
}

#[cfg(test)]
mod tests {
    use super::*;
    use reference::calls::ring_modes_and_traits;

    #[test]
    fn some_rings_are_joined_round_at_every_closeness_that_is_served() {
        let cases = joined_every_closeness(&mut Random::new(1));
        for closeness in LEAST_CLOSENESS..=MOST_CLOSENESS {
            let mut at_it = cases.iter().filter(|case| case.closeness == closeness);
            let joined = at_it.any(|case| {
                let mut list = vec![0; case.places];
                ring_modes_and_traits(&case.histogram, closeness, &mut list)
                    .1
                    .joins
                    > 0
            });
            assert!(joined, "at {closeness}");
        }
    }
}
