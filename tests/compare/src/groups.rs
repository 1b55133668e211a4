//! The named groups of histograms, each of which is one test.

use crate::closenesses;
use crate::shapes::{self, Shape, SHAPES};
use crate::ties::TIES;
use cloths::random::Random;
use reference::calls::{LEAST_CLOSENESS, MOST_BINS, MOST_CLOSENESS};

/// A histogram and the closenesses at which it is judged. Both directions are always taken.
pub struct Case {
    pub histogram: Vec<u32>,
    pub closenesses: Vec<i32>,
}

/// Where a group's histograms come from.
pub enum Source {
    /// A list, the same length in every run.
    List(fn(&mut Random) -> Vec<Case>),
    /// Drawn from one shape; how many, in hundredths of the count.
    Draw(Shape, usize),
}

use Source::{Draw, List};

pub const GROUPS: [(&str, Source); 18] = [
    ("samples", List(samples)),
    ("every small histogram", List(every_small)),
    ("two bins", List(two_bins)),
    ("empty and single spikes", List(single_spikes)),
    ("cost 0 and next to it", List(ties)),
    ("every length 0 to 300", List(every_length)),
    ("every closeness -12 to 22", List(every_closeness)),
    ("256 and 257 bins", List(longest)),
    ("noise", Draw(shapes::noise, 21)),
    ("sparse", Draw(shapes::sparse, 12)),
    ("plateaus", Draw(shapes::plateaus, 12)),
    ("equal means", Draw(shapes::equal_means, 14)),
    ("spikes", Draw(shapes::spikes, 10)),
    ("monotone", Draw(shapes::monotone, 10)),
    ("alternating", Draw(shapes::alternating, 8)),
    ("humps", Draw(shapes::hump, 8)),
    ("sums around 65,536", Draw(shapes::near_the_limit, 3)),
    ("huge counts", Draw(shapes::huge, 2)),
];

impl Source {
    pub fn cases(&self, random: &mut Random, count: usize) -> Vec<Case> {
        match self {
            List(list) => list(random),
            Draw(shape, share) => draw(random, count * share / 100, *shape),
        }
    }
}

fn draw(random: &mut Random, count: usize, shape: Shape) -> Vec<Case> {
    (0..count)
        .map(|_| {
            let bins = shapes::bins(random);
            let histogram = shape(random, bins);
            let closenesses = vec![closenesses::any(random)];
            Case {
                histogram,
                closenesses,
            }
        })
        .collect()
}

fn served(histogram: Vec<u32>) -> Case {
    Case {
        histogram,
        closenesses: vec![LEAST_CLOSENESS, -3, -1, 0, 1, 3, MOST_CLOSENESS],
    }
}

fn samples(_: &mut Random) -> Vec<Case> {
    let stretches: [&[u32]; 12] = [
        &[0, 1],
        &[1, 0],
        &[1, 0, 0],
        &[3, 3, 3],
        &[3, 1, 2],
        &[1, 3, 2],
        &[0, 1, 0, 1],
        &[1, 0, 1, 0],
        &[0, 20, 0, 20],
        &[20, 0, 20, 0],
        &[65_535, 1],
        &[65_536, 1],
    ];
    let closenesses: Vec<i32> = closenesses::every().collect();
    stretches
        .iter()
        .map(|stretch| Case {
            histogram: stretch.to_vec(),
            closenesses: closenesses.clone(),
        })
        .collect()
}

/// Every histogram of 2 to 5 bins with counts of 0 to 3, and of 6 bins with counts of 0 to 2.
fn every_small(_: &mut Random) -> Vec<Case> {
    let mut cases = Vec::new();
    for (bins, levels) in [(2, 4), (3, 4), (4, 4), (5, 4), (6, 3)] {
        for code in 0..u32::pow(levels, bins) {
            let digits = (0..bins).map(|bin| code / u32::pow(levels, bin) % levels);
            cases.push(served(digits.collect()));
        }
    }
    cases
}

fn two_bins(_: &mut Random) -> Vec<Case> {
    let mut cases = Vec::new();
    for left in 0..=60 {
        for right in 0..=60 {
            cases.push(served(vec![left, right]));
        }
    }
    for left in (0..=65_536)
        .step_by(257)
        .chain([1, 2, 32_767, 32_768, 65_535])
    {
        for sum in 65_535..=65_537 {
            cases.push(served(vec![left, u32::max(sum, left) - left]));
        }
    }
    cases
}

fn single_spikes(_: &mut Random) -> Vec<Case> {
    let mut cases = Vec::new();
    for bins in 2..=24 {
        cases.push(served(vec![0; bins]));
        for place in 0..bins {
            for height in [1, 2, 3, 5, 100, 65_535, 65_536, 65_537] {
                let mut histogram = vec![0; bins];
                histogram[place] = height;
                cases.push(served(histogram));
            }
        }
    }
    for bins in [60, 128, 255, MOST_BINS] {
        cases.push(served(vec![0; bins]));
    }
    cases
}

/// At the closeness of the tie, one below and one above, and mirrored.
fn ties(_: &mut Random) -> Vec<Case> {
    TIES.iter()
        .flat_map(|&(_, closeness, stretch)| {
            let histogram = stretch.to_vec();
            let mirrored = stretch.iter().rev().copied().collect();
            let closenesses: Vec<i32> = (closeness - 1..=closeness + 1).collect();
            [histogram, mirrored].map(|histogram| Case {
                histogram,
                closenesses: closenesses.clone(),
            })
        })
        .collect()
}

fn every_length(random: &mut Random) -> Vec<Case> {
    let mut cases = Vec::new();
    for bins in 0..=300 {
        // A shape needs two bins or more; shorter histograms are its first bins.
        let mut histogram = SHAPES[bins % SHAPES.len()](random, bins.max(2));
        histogram.truncate(bins);
        cases.push(Case {
            histogram,
            closenesses: vec![closenesses::served(random)],
        });
    }
    cases
}

/// Each shape at the most bins and at one more; with a sum or a closeness that is turned down as well.
fn longest(random: &mut Random) -> Vec<Case> {
    let mut cases = Vec::new();
    for shape in SHAPES {
        for _ in 0..5 {
            let closenesses = vec![closenesses::any(random)];
            cases.push(Case {
                histogram: shape(random, MOST_BINS),
                closenesses,
            });
            let closenesses = vec![0, LEAST_CLOSENESS - 1, MOST_CLOSENESS + 1];
            cases.push(Case {
                histogram: shape(random, MOST_BINS + 1),
                closenesses,
            });
        }
    }
    let halves = |high: usize| {
        (0..MOST_BINS)
            .map(|bin| u32::from(bin < high))
            .collect::<Vec<_>>()
    };
    for high in [1, 127, 128, 129, 255] {
        cases.push(Case {
            histogram: halves(high),
            closenesses: vec![LEAST_CLOSENESS, 0],
        });
    }
    for count in [MOST_BINS as u32, MOST_BINS as u32 + 1, u32::MAX] {
        for bins in [MOST_BINS, MOST_BINS + 1] {
            cases.push(Case {
                histogram: vec![count; bins],
                closenesses: vec![0, LEAST_CLOSENESS - 1, MOST_CLOSENESS + 1],
            });
        }
    }
    cases
}

fn every_closeness(random: &mut Random) -> Vec<Case> {
    let ends = closenesses::AT_THE_ENDS;
    let closenesses: Vec<i32> = closenesses::every().chain(ends).collect();
    (0..1000)
        .map(|index| {
            let bins = 2 + random.below(11);
            let histogram = SHAPES[index % SHAPES.len()](random, bins);
            Case {
                histogram,
                closenesses: closenesses.clone(),
            }
        })
        .collect()
}
