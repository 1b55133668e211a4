//! The test.

use crate::logarithm::{lg, UNIT};
use crate::pooling::{fit, Block};

/// A stretch that is not rejected can cost 0 or more: the cost decides on joins, the rejection on humps.
#[derive(Clone, Copy, Debug, PartialEq, Eq)]
pub struct Verdict {
    pub cost: i64,
    pub rejected: bool,
}

/// The verdict of a stretch of 257 bins and a sum of 98,304 at most: those of a full turn of a ring, whose separator, at
/// both ends, holds at most half of the counts.
pub fn verdict(counts: &[u64], rising: bool, closeness: i32) -> Verdict {
    let cost = largest_weight(counts, rising) - bar(counts.len(), closeness);
    Verdict {
        cost,
        rejected: has_step_against(counts, rising) && cost >= 0,
    }
}

/// Whether some bin is followed by a lower one in a rise, or by a higher one in a fall. Without such a step the fit is
/// the stretch itself, so there is nothing to reject, even below a bar of 0. One bin has no steps at all.
pub fn has_step_against(counts: &[u64], rising: bool) -> bool {
    counts.windows(2).any(|step| {
        if rising {
            step[1] < step[0]
        } else {
            step[1] > step[0]
        }
    })
}

/// The bar Θ, which is 0 or less for a short stretch at a closeness far enough below 0.
pub fn bar(bins: usize, closeness: i32) -> i64 {
    let bins = bins as u64;
    lg(bins * (bins + 1) / 2) as i64 + i64::from(closeness) * UNIT as i64
}

/// The largest W over all parts.
pub fn largest_weight(counts: &[u64], rising: bool) -> i64 {
    let total: u64 = counts.iter().sum();
    parts(counts, rising)
        .iter()
        .map(|part| part.weight(total))
        .max()
        .expect("a stretch has parts")
}

/// A part's count k and fitted mass A/B.
#[derive(Clone, Copy, Debug, PartialEq, Eq)]
pub struct Part {
    pub count: u64,
    pub mass: u64,
    pub over: u64,
}

impl Part {
    /// The weight W, in a stretch whose counts sum to `total`.
    pub fn weight(&self, total: u64) -> i64 {
        let outside = Part {
            count: total - self.count,
            mass: total * self.over - self.mass,
            over: self.over,
        };
        self.term() + outside.term()
    }

    fn term(&self) -> i64 {
        if self.count == 0 {
            return 0;
        }
        self.count as i64 * (lg(self.count * self.over) as i64 - lg(self.mass) as i64)
    }
}

/// Every part of the stretch, by first bin and then by last.
pub fn parts(counts: &[u64], rising: bool) -> Vec<Part> {
    let fitted = fit(counts, rising);
    let means: Vec<Fraction> = fitted.iter().map(mean).collect();
    let mut parts = Vec::new();
    for first in 0..counts.len() {
        let mut count = 0;
        let mut mass = Fraction { above: 0, below: 1 };
        for last in first..counts.len() {
            count += counts[last];
            mass = mass.plus(means[last]);
            let over = denominator(&fitted[first], &fitted[last]);
            parts.push(Part {
                count,
                mass: mass.times(over),
                over,
            });
        }
    }
    parts
}

/// B, from the blocks of a part's two ends.
fn denominator(first: &Block, last: &Block) -> u64 {
    if first == last {
        first.len as u64
    } else {
        (first.len * last.len) as u64
    }
}

fn mean(block: &Block) -> Fraction {
    Fraction {
        above: block.sum,
        below: block.len as u64,
    }
    .reduced()
}

/// A fraction in lowest terms.
#[derive(Clone, Copy, Debug, PartialEq, Eq)]
struct Fraction {
    above: u64,
    below: u64,
}

impl Fraction {
    fn reduced(self) -> Fraction {
        let divisor = greatest_common_divisor(self.above, self.below);
        Fraction {
            above: self.above / divisor,
            below: self.below / divisor,
        }
    }

    fn plus(self, other: Fraction) -> Fraction {
        Fraction {
            above: self.above * other.below + other.above * self.below,
            below: self.below * other.below,
        }
        .reduced()
    }

    /// The fraction times a whole number, where that is whole.
    fn times(self, factor: u64) -> u64 {
        assert!(
            factor.is_multiple_of(self.below),
            "{self:?} times {factor} is not whole"
        );
        self.above * (factor / self.below)
    }
}

fn greatest_common_divisor(a: u64, b: u64) -> u64 {
    if b == 0 {
        a
    } else {
        greatest_common_divisor(b, a % b)
    }
}

#[cfg(test)]
mod tests {
    use super::*;

    #[test]
    fn masses_of_a_small_fit() {
        // Fitted 1, 5/2, 5/2: one block of one bin and one of two.
        let part = |count, mass, over| Part { count, mass, over };
        assert_eq!(
            parts(&[1, 3, 2], true),
            [
                part(1, 1, 1),
                part(4, 7, 2),
                part(6, 12, 2),
                part(3, 5, 2),
                part(5, 10, 2),
                part(2, 5, 2),
            ]
        );
    }

    #[test]
    fn a_fall_taken_as_a_rise() {
        // Both bins get 1/2; the first part has k = 1 and A/B = 1/2, so W is one bit, the bar lg 3.
        let cost = UNIT as i64 - lg(3) as i64;
        assert_eq!(
            verdict(&[1, 0], true, 0),
            Verdict {
                cost,
                rejected: false
            }
        );
        let cost = 2 * UNIT as i64 - lg(3) as i64;
        assert_eq!(
            verdict(&[2, 0], true, 0),
            Verdict {
                cost,
                rejected: true
            }
        );
    }

    #[test]
    fn a_monotone_stretch_costs_minus_the_bar() {
        let expected = Verdict {
            cost: -bar(5, 3),
            rejected: false,
        };
        assert_eq!(verdict(&[0, 1, 1, 4, 9], true, 3), expected);
        assert_eq!(verdict(&[9, 4, 1, 1, 0], false, 3), expected);
        assert_eq!(verdict(&[0; 5], true, 3), expected);
    }

    #[test]
    fn a_bar_goes_below_0_with_the_closeness() {
        let lg = |x| lg(x) as i64;
        assert_eq!(bar(3, 20), lg(6) + 20 * UNIT as i64);
        assert_eq!(bar(3, 0), lg(6));
        assert_eq!(bar(3, -2), lg(6) - 2 * UNIT as i64);
        assert_eq!(bar(1, -10), -10 * UNIT as i64);
    }

    #[test]
    fn one_bin_is_never_rejected() {
        for (closeness, cost) in [(0, 0), (-10, 10 * UNIT as i64)] {
            let accepted = Verdict {
                cost,
                rejected: false,
            };
            assert_eq!(verdict(&[7], true, closeness), accepted);
        }
    }

    #[test]
    fn a_cost_of_0_is_a_rejection() {
        // Fitted 58, 737, 737. The last bin weighs most, with k = 678 and A/B = 1474/2; the other 854 counts have
        // 1590/2.
        let term = |count: u64, mass| count as i64 * (lg(2 * count) as i64 - lg(mass) as i64);
        let bar = lg(6) as i64 + 4 * UNIT as i64;
        assert_eq!(
            term(678, 1474) + term(854, 1590),
            bar,
            "the tie rests on this"
        );
        assert_eq!(
            verdict(&[58, 796, 678], true, 4),
            Verdict {
                cost: 0,
                rejected: true
            }
        );
    }

    #[test]
    fn a_cost_of_minus_1_is_no_rejection() {
        // Two leading empty bins, then a block of six with both counts in its first: W = 2·lg 6, the bar lg 36.
        assert_eq!(lg(36), 2 * lg(6) + 1, "the cost rests on this");
        assert_eq!(
            verdict(&[0, 0, 2, 0, 0, 0, 0, 0], true, 0),
            Verdict {
                cost: -1,
                rejected: false
            }
        );
    }

    #[test]
    fn humps_that_are_given() {
        // 0, 20, 0, 20, 0 keeps its middle separator at closeness 13 and loses it at 14: either way of joining its
        // two segments is rejected at 13, and one of them is not at 14. 0, 1, 0, 1, 0 loses it at once.
        let costs = |counts: [u64; 4], mirror: [u64; 4], closeness| {
            verdict(&counts, true, closeness)
                .cost
                .min(verdict(&mirror, false, closeness).cost)
        };
        assert!(costs([0, 20, 0, 20], [20, 0, 20, 0], 13) >= 0);
        assert!(costs([0, 20, 0, 20], [20, 0, 20, 0], 14) < 0);
        assert!(costs([0, 1, 0, 1], [1, 0, 1, 0], 0) < 0);
    }
}
