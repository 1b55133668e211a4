//! Pooling, by the greatest convex minorant: draw the running sums over the bins as points, and stretch a string below
//! them from the first to the last. The string's straight pieces are the blocks of the increasing fit, and their slopes
//! are the means.

/// A block's bins are `first` and the `len` − 1 after it; its mean is `sum` over `len`.
#[derive(Clone, Copy, Debug, PartialEq, Eq)]
pub struct Block {
    pub first: usize,
    pub len: usize,
    pub sum: u64,
}

impl Block {
    pub fn end(&self) -> usize {
        self.first + self.len
    }
}

/// The blocks of the fit, from left to right. The string knows no order of bins. It is kept for the comparison with the
/// engine although `steps` gives the same blocks: two different ways are a better check than one way done twice.
pub fn blocks(counts: &[u64], rising: bool) -> Vec<Block> {
    if rising {
        rising_blocks(counts)
    } else {
        mirrored(
            &rising_blocks(&counts.iter().rev().copied().collect::<Vec<_>>()),
            counts.len(),
        )
    }
}

/// Each bin's block.
pub fn fit(counts: &[u64], rising: bool) -> Vec<Block> {
    blocks(counts, rising)
        .into_iter()
        .flat_map(|block| std::iter::repeat_n(block, block.len))
        .collect()
}

/// From each corner of the string the next one is where the slope is least, the farthest of equals: so slopes rise
/// strictly from piece to piece.
fn rising_blocks(counts: &[u64]) -> Vec<Block> {
    let heights = running_sums(counts);
    let mut blocks = Vec::new();
    let mut corner = 0;
    while corner < counts.len() {
        let mut next = corner + 1;
        for point in corner + 2..heights.len() {
            if slope_at_most(&heights, corner, point, next) {
                next = point;
            }
        }
        let sum = (heights[next] - heights[corner]) as u64;
        blocks.push(Block {
            first: corner,
            len: next - corner,
            sum,
        });
        corner = next;
    }
    blocks
}

/// The sum of the bins before each place, the end included.
fn running_sums(counts: &[u64]) -> Vec<u128> {
    let mut heights = vec![0];
    for &count in counts {
        heights.push(heights[heights.len() - 1] + u128::from(count));
    }
    heights
}

/// Whether the line from `corner` to `point` is no steeper than that from `corner` to `other`.
fn slope_at_most(heights: &[u128], corner: usize, point: usize, other: usize) -> bool {
    let rise = |to: usize| heights[to] - heights[corner];
    let run = |to: usize| (to - corner) as u128;
    rise(point) * run(other) <= rise(other) * run(point)
}

fn mirrored(blocks: &[Block], bins: usize) -> Vec<Block> {
    blocks
        .iter()
        .rev()
        .map(|block| Block {
            first: bins - block.end(),
            ..*block
        })
        .collect()
}

#[cfg(test)]
mod tests {
    use super::*;

    fn means(counts: &[u64], rising: bool) -> Vec<(u64, usize)> {
        fit(counts, rising)
            .iter()
            .map(|block| (block.sum, block.len))
            .collect()
    }

    #[test]
    fn samples_that_are_given() {
        assert_eq!(means(&[3, 1, 2], true), [(6, 3), (6, 3), (6, 3)]);
        assert_eq!(means(&[1, 3, 2], true), [(1, 1), (5, 2), (5, 2)]);
    }

    #[test]
    fn equal_means_share_a_block() {
        assert_eq!(means(&[2, 2, 3, 1, 2], true), [(10, 5); 5]);
        assert_eq!(means(&[0, 0, 1, 1], true), [(0, 2), (0, 2), (2, 2), (2, 2)]);
    }

    #[test]
    fn a_decreasing_fit_is_the_mirror_image() {
        assert_eq!(means(&[2, 3, 1], false), [(5, 2), (5, 2), (1, 1)]);
        assert_eq!(
            blocks(&[2, 3, 1], false)[1],
            Block {
                first: 2,
                len: 1,
                sum: 1
            }
        );
    }

    /// Every nondecreasing sequence over a grid of fractions is farther from the bins than the fit, or is the fit.
    #[test]
    fn nothing_on_a_grid_is_nearer() {
        const GRID: u64 = 6;
        for code in 0..4u64.pow(4) {
            let counts: Vec<u64> = (0..4).map(|bin| code / 4u64.pow(bin) % 4).collect();
            let fitted: Vec<(u64, u64)> = means(&counts, true)
                .iter()
                .map(|&(sum, len)| (sum, len as u64))
                .collect();
            let least = distance(&counts, &fitted);
            for values in nondecreasing(4, 3 * GRID) {
                let other: Vec<(u64, u64)> = values.iter().map(|&value| (value, GRID)).collect();
                let same = other
                    .iter()
                    .zip(&fitted)
                    .all(|(a, b)| a.0 * b.1 == b.0 * a.1);
                assert!(
                    same || least < distance(&counts, &other),
                    "{counts:?} {other:?}"
                );
            }
        }
    }

    /// The sum of squared differences, over the common denominator 144 = 12².
    fn distance(counts: &[u64], values: &[(u64, u64)]) -> i64 {
        let scaled = |(sum, len): (u64, u64)| (sum * (12 / len)) as i64;
        counts
            .iter()
            .zip(values)
            .map(|(&c, &v)| (12 * c as i64 - scaled(v)).pow(2))
            .sum()
    }

    fn nondecreasing(len: usize, top: u64) -> Vec<Vec<u64>> {
        let mut all = vec![vec![]];
        for _ in 0..len {
            all = all
                .into_iter()
                .flat_map(|head: Vec<u64>| {
                    let low = head.last().copied().unwrap_or(0);
                    (low..=top).map(move |value| [head.clone(), vec![value]].concat())
                })
                .collect();
        }
        all
    }
}
