//! Histograms for several calls: the limits of grounds 6 and 7, small ones that show a rule, and the shapes from which
//! random ones are drawn.

use compare::shapes::{self, Shape};
use reference::calls::MOST_BINS;

/// A histogram and what it is for.
pub type Named = (String, Vec<u32>);

/// Shapes to draw from, by name.
pub const SHAPES: [(&str, Shape); 10] = [
    ("noise", shapes::noise),
    ("sparse", shapes::sparse),
    ("plateaus", shapes::plateaus),
    ("equal means", shapes::equal_means),
    ("spikes", shapes::spikes),
    ("monotone", shapes::monotone),
    ("alternating", shapes::alternating),
    ("humps", shapes::hump),
    ("a sum next to 65,536", shapes::near_the_limit),
    ("huge counts", shapes::huge),
];

fn named(list: Vec<(&str, Vec<u32>)>) -> Vec<Named> {
    let own = |(what, histogram): (&str, Vec<u32>)| (what.to_string(), histogram);
    list.into_iter().map(own).collect()
}

/// Grounds 6 and 7 from both sides.
pub fn limits() -> Vec<Named> {
    named(vec![
        ("no bins: ground 6", vec![]),
        ("one bin: ground 6", vec![5]),
        ("two bins, the fewest", vec![1, 3]),
        (
            "256 bins, the most, of a sum of 65,536, the largest",
            vec![256; MOST_BINS],
        ),
        ("257 bins: ground 6", vec![0; MOST_BINS + 1]),
        ("1,000 bins: ground 6", vec![1; 1000]),
        ("a sum of 65,536 in one bin", vec![0, 65_536, 0]),
        ("a sum of 65,536 in all bins", vec![21_845, 21_846, 21_845]),
        ("a sum of 65,537: ground 7", vec![65_536, 1]),
        ("a sum of 65,537 in one bin: ground 7", vec![0, 0, 65_537]),
        ("256 bins of a sum of 65,537: ground 7", {
            let mut histogram = vec![256; MOST_BINS];
            histogram[MOST_BINS - 1] += 1;
            histogram
        }),
        (
            "a sum of 2^32, which is 0 in 32 bits: ground 7",
            vec![1 << 31, 1 << 31],
        ),
        (
            "a sum of 2^32 + 5, which is 5 in 32 bits: ground 7",
            vec![u32::MAX, 6],
        ),
        ("the largest counts: ground 7", vec![u32::MAX; 4]),
        (
            "256 of the largest count: ground 7",
            vec![u32::MAX; MOST_BINS],
        ),
        (
            "257 bins and too large a sum: ground 6 comes first",
            vec![65_536; MOST_BINS + 1],
        ),
        (
            "one bin and too large a sum: ground 6 comes first",
            vec![65_537],
        ),
    ])
}

/// Small histograms that tell a right engine from one that has misread a rule.
pub fn telling() -> Vec<Named> {
    named(vec![
        ("all zero, two bins", vec![0; 2]),
        ("all zero", vec![0; 5]),
        ("all zero, 256 bins", vec![0; MOST_BINS]),
        ("all equal", vec![7; 6]),
        ("rising", vec![0, 1, 1, 4, 9]),
        ("falling", vec![9, 4, 1, 1, 0]),
        ("equal means share a block", vec![2, 2, 3, 1, 2]),
        (
            "equal means share a block, the other way",
            vec![2, 1, 3, 2, 2],
        ),
        (
            "a block that comes to the mean of the bin before it",
            vec![2, 3, 1],
        ),
        (
            "a block that comes to the mean of the bin after it",
            vec![1, 3, 1, 2],
        ),
        ("a low last bin after equal ones", vec![1, 4, 4, 4, 0]),
        ("a low first bin before equal ones", vec![0, 4, 4, 4, 1]),
        (
            "a first bin that merges with block after block",
            vec![9, 1, 2, 3, 4, 5],
        ),
        (
            "a last bin that merges with block after block",
            vec![5, 4, 3, 2, 1, 9],
        ),
        ("means that are no whole numbers", vec![3, 2, 5, 1, 1, 8, 0]),
        ("leading zeros", vec![0, 0, 0, 5, 3]),
        ("trailing zeros", vec![3, 5, 0, 0, 0]),
        ("a hump", vec![1, 4, 9, 4, 1]),
        ("a valley", vec![9, 4, 1, 4, 9]),
        ("alternating", vec![0, 9, 0, 9, 0, 9, 0, 9]),
        ("alternating, 256 bins", [3, 0].repeat(MOST_BINS / 2)),
        ("one spike among many bins", {
            let mut histogram = vec![0; 60];
            histogram[41] = 65_536;
            histogram
        }),
    ])
}

/// Every histogram of this many bins with these counts.
pub fn every(bins: u32, counts: &[u32]) -> Vec<Vec<u32>> {
    let digit = |code: usize, bin| counts[code / counts.len().pow(bin) % counts.len()];
    let all = 0..counts.len().pow(bins);
    all.map(|code| (0..bins).map(|bin| digit(code, bin)).collect())
        .collect()
}
