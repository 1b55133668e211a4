//! Stretches whose cost, one way or the other, is another by some units when B is not that of T1 and T2. Which stretches
//! show a mistake depends on how the logarithm is rounded; a test makes sure that each of these shows its own.

use reference::test::Part;

/// A part with another B, from the lengths of the blocks that it lies in, first to last.
type Mistake = fn(&[u64], Part) -> Part;

const PRODUCT: &str = "B of a part that ends in two blocks is the product of their lengths";
const ENDS: &str = "B has nothing of the blocks between the two ends";
const EQUAL: &str = "B is the product also where the two lengths are equal";
const ONE_BLOCK: &str = "B of a part that ends in one block is its length";
const NOT_LOWEST: &str = "A/B is not put into lowest terms";
const NOT_COMMON: &str = "B is the product, not the least common multiple";

/// The rule, the mistake that the stretch shows, and its counts.
pub const DENOMINATORS: [(&str, Mistake, &[u32]); 12] = [
    (PRODUCT, sum, &[0, 5, 2]),
    (PRODUCT, sum, &[1, 7, 0]),
    (ENDS, all_blocks, &[0, 2, 0, 1, 1, 0, 1]),
    (ENDS, all_blocks, &[6, 0, 9, 9, 0, 16, 0]),
    (EQUAL, once_if_equal, &[0, 0, 1, 0, 0, 0]),
    (EQUAL, once_if_equal, &[5, 1, 2, 6, 6, 4]),
    (ONE_BLOCK, always_product, &[0, 0, 1]),
    (ONE_BLOCK, always_product, &[0, 1, 0, 0]),
    (NOT_LOWEST, lowest_terms, &[1, 1, 7]),
    (NOT_LOWEST, lowest_terms, &[2, 3, 4]),
    (NOT_COMMON, least_common, &[0, 0, 0, 0, 0, 0, 4, 0, 0]),
    (NOT_COMMON, least_common, &[2, 0, 0, 31, 1, 0]),
];

/// A stays, so that A/B is another fraction.
fn sum(lengths: &[u64], part: Part) -> Part {
    match lengths {
        [first, .., last] => Part {
            over: first + last,
            ..part
        },
        _ => part,
    }
}

fn all_blocks(lengths: &[u64], part: Part) -> Part {
    with_denominator(lengths.iter().product(), part)
}

fn once_if_equal(lengths: &[u64], part: Part) -> Part {
    match lengths {
        [first, .., last] if first == last => with_denominator(*first, part),
        _ => part,
    }
}

fn always_product(lengths: &[u64], part: Part) -> Part {
    with_denominator(lengths[0] * lengths[lengths.len() - 1], part)
}

fn lowest_terms(_: &[u64], part: Part) -> Part {
    let whole = |over: &u64| (part.mass * over).is_multiple_of(part.over);
    let lowest = (1..=part.over).find(whole);
    with_denominator(lowest.expect("B itself is one"), part)
}

fn least_common(lengths: &[u64], part: Part) -> Part {
    let (first, last) = (lengths[0], lengths[lengths.len() - 1]);
    let mut multiples = (1..=last).map(|times| times * first);
    let least = multiples.find(|multiple| multiple.is_multiple_of(last));
    with_denominator(least.expect("the product is one"), part)
}

/// The same fraction, with this B.
fn with_denominator(over: u64, part: Part) -> Part {
    Part {
        mass: part.mass * over / part.over,
        over,
        ..part
    }
}

#[cfg(test)]
mod tests {
    use super::*;
    use reference::pooling::{blocks, Block};
    use reference::test::{largest_weight, parts};

    /// The lengths of the blocks that each part lies in, for the parts in their order: by first bin and then by last.
    fn lengths(counts: &[u64], rising: bool) -> Vec<Vec<u64>> {
        let blocks = blocks(counts, rising);
        let bins = counts.len();
        let mut lengths = Vec::new();
        for first in 0..bins {
            for last in first..bins {
                let meets = |block: &&Block| block.first <= last && first < block.end();
                let met = blocks.iter().filter(meets);
                lengths.push(met.map(|block| block.len as u64).collect());
            }
        }
        lengths
    }

    fn mistaken_weight(counts: &[u64], rising: bool, mistake: Mistake) -> Option<i64> {
        let total = counts.iter().sum();
        let parts = parts(counts, rising).into_iter();
        parts
            .zip(lengths(counts, rising))
            .map(|(part, lengths)| mistake(&lengths, part).weight(total))
            .max()
    }

    fn shows(counts: &[u32], mistake: Mistake) -> bool {
        let counts: Vec<u64> = counts.iter().map(|&count| u64::from(count)).collect();
        [true, false].iter().any(|&rising| {
            let right = largest_weight(&counts, rising);
            mistaken_weight(&counts, rising, mistake) != Some(right)
        })
    }

    #[test]
    fn every_mistake_shows() {
        for (rule, mistake, counts) in DENOMINATORS {
            assert!(shows(counts, mistake), "{rule}: {counts:?}");
        }
    }

    #[test]
    fn what_is_right_shows_nothing() {
        for (rule, _, counts) in DENOMINATORS {
            let right: Mistake = |lengths, part| match lengths {
                [one] => with_denominator(*one, part),
                _ => always_product(lengths, part),
            };
            assert!(!shows(counts, right), "{rule}: {counts:?}");
        }
    }
}
