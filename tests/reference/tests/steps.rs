//! Pooling in steps, compared after each step with the minorant of the bins taken so far.

#[path = "common/scatter.rs"]
mod scatter;

use reference::pooling::{blocks, Block};
use reference::steps::steps;
use scatter::Scatter;

#[test]
fn samples_step_by_step() {
    for (counts, rising, expected) in [
        ([2, 2, 2], true, "2/1; 4/2; 6/3"),
        ([2, 2, 2], false, "2/1; 4/2; 6/3"),
        ([3, 1, 2], true, "2/1; 1/1 2/1; 6/3"),
        ([1, 3, 2], true, "2/1; 5/2; 1/1 5/2"),
        ([1, 3, 2], false, "2/1; 3/1 2/1; 6/3"),
    ] {
        let mean = |block: &Block| format!("{}/{}", block.sum, block.len);
        let means = |held: &Vec<Block>| held.iter().map(mean).collect::<Vec<_>>().join(" ");
        let found: Vec<String> = steps(&counts, rising).iter().map(means).collect();
        assert_eq!(found.join("; "), expected, "{counts:?} {rising}");
    }
}

/// What P5 promises of the bins taken: the blocks' means are in order, strictly, and they account for every bin and
/// every count.
fn assert_promised(held: &[Block], taken: &[u64], rising: bool) {
    let times = |block: &Block, len: usize| u128::from(block.sum) * len as u128;
    let in_order = held.is_sorted_by(|left, right| {
        let (left, right) = (times(left, right.len), times(right, left.len));
        left != right && (left < right) == rising
    });
    assert!(in_order, "{taken:?} {rising}: {held:?}");
    let sum: u64 = held.iter().map(|block| block.sum).sum();
    assert_eq!(sum, taken.iter().sum(), "{taken:?} {rising}");
    let len: usize = held.iter().map(|block| block.len).sum();
    assert_eq!(len, taken.len(), "{taken:?} {rising}");
}

fn check(counts: &[u64], rising: bool) {
    let after_each = steps(counts, rising);
    assert_eq!(after_each.len(), counts.len());
    for (held, left) in after_each.iter().zip((0..counts.len()).rev()) {
        let taken = &counts[left..];
        assert_promised(held, taken, rising);
        let mut expected = blocks(taken, rising);
        expected.iter_mut().for_each(|block| block.first += left);
        assert_eq!(*held, expected, "{taken:?} {rising}");
    }
}

#[test]
fn every_histogram_of_up_to_6_bins() {
    for bins in 0..=6 {
        for code in 0..4u64.pow(bins) {
            let counts: Vec<u64> = (0..bins).map(|bin| code / 4u64.pow(bin) % 4).collect();
            check(&counts, true);
            check(&counts, false);
        }
    }
}

/// Level lines, and slopes, which have many blocks in one direction and few in the other. Of the largest counts a sum
/// has 64 bits at most, and a sum times a length can have more.
#[test]
fn scattered_histograms_of_up_to_257_bins() {
    let mut scatter = Scatter(257);
    for (least, range) in [(0, 3), (0, 1_000), (0, 1 << 31), (1 << 55, 8)] {
        for bins in (1..=257).step_by(8) {
            let level = scatter.line(bins, least, range);
            let tilt = |(count, bin): (&u64, u64)| count + bin * range / 8;
            let up: Vec<u64> = level.iter().zip(0..).map(tilt).collect();
            let down: Vec<u64> = up.iter().rev().copied().collect();
            for counts in [level, up, down] {
                check(&counts, true);
                check(&counts, false);
            }
        }
    }
}
