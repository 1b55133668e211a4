//! The named groups of labels of one byte that are widened, each of which is one test.

use crate::widenings::{WideningCase, Widenings};
use cloths::random::Random;

/// A group: its lists, how many of them following from the count of the run, and what they have to be.
pub struct WideningGroup {
    pub name: &'static str,
    pub cases: fn(&mut Random, usize) -> Vec<WideningCase>,
    pub least: Widenings,
}

// The least numbers of what is drawn are well below what the run without arguments has, so that another seed does not fall
// below by chance.
pub const WIDENINGS: [WideningGroup; 5] = [
    WideningGroup {
        name: "every byte",
        cases: every_byte,
        least: Widenings::of([770, 2, 0, 0, 0]),
    },
    WideningGroup {
        name: "every length 0 to 300",
        cases: every_length,
        least: Widenings::of([306, 0, 0, 1_200, 902]),
    },
    WideningGroup {
        name: "lengths that are equal in fewer bits",
        cases: equal_in_fewer_bits,
        least: Widenings::of([0, 0, 0, 36, 36]),
    },
    WideningGroup {
        name: "65,536 labels and more",
        cases: long,
        least: Widenings::of([8, 8, 6, 24, 16]),
    },
    WideningGroup {
        name: "drawn",
        cases: drawn,
        least: Widenings::of([500, 20, 0, 50, 50]),
    },
];

/// With as many places as labels.
fn fitting(narrow: Vec<u8>) -> WideningCase {
    WideningCase {
        places: narrow.len(),
        narrow,
    }
}

fn any_bytes(random: &mut Random, count: usize) -> Vec<u8> {
    (0..count).map(|_| random.bits() as u8).collect()
}

/// Each alone, between others, over and over; all of them, either way round.
fn every_byte(_: &mut Random, _: usize) -> Vec<WideningCase> {
    let each = (0..=255).flat_map(|byte| [vec![byte], vec![255, byte, 0], vec![byte; 9]]);
    let all: Vec<u8> = (0..=255).collect();
    let back = all.iter().rev().copied().collect();
    each.chain([all, back]).map(fitting).collect()
}

/// With as many places, with one or two fewer and more, with half and with twice as many, and with none.
fn every_length(random: &mut Random, _: usize) -> Vec<WideningCase> {
    let mut cases = Vec::new();
    for count in 0..=300usize {
        let narrow = any_bytes(random, count);
        for places in [
            count,
            count + 1,
            count + 2,
            2 * count,
            count.saturating_sub(1),
            count.saturating_sub(2),
            count / 2,
            0,
        ] {
            cases.push(WideningCase {
                narrow: narrow.clone(),
                places,
            });
        }
    }
    cases
}

/// A list and one that is longer by what 8 or 16 bits leave out.
fn equal_in_fewer_bits(random: &mut Random, _: usize) -> Vec<WideningCase> {
    let mut cases = Vec::new();
    for more in [1 << 8, 1 << 16, 1 << 17] {
        for count in [0, 1, 2, 3, 7, 100, 255, 256, 257, 1_000, 65_535, 65_536] {
            for (count, places) in [(count, count + more), (count + more, count)] {
                cases.push(WideningCase {
                    narrow: any_bytes(random, count),
                    places,
                });
            }
        }
    }
    cases
}

/// As many as an image may have pixels, and more: no ground but 9 concerns the call.
fn long(random: &mut Random, _: usize) -> Vec<WideningCase> {
    let mut cases = Vec::new();
    for count in [
        65_535,
        65_536,
        65_537,
        70_001,
        131_072,
        200_000,
        1_000_003,
        1 << 20,
    ] {
        let narrow = any_bytes(random, count);
        for places in [count, count - 1, count + 1, count / 2, 2 * count, 0] {
            cases.push(WideningCase {
                narrow: narrow.clone(),
                places,
            });
        }
    }
    cases
}

/// Of any bytes or of fewer, short ones more often than long ones; one in five is turned down.
fn drawn(random: &mut Random, count: usize) -> Vec<WideningCase> {
    const FEWEST: usize = 1_000;
    const LONGEST: usize = 5_000;
    (0..FEWEST.max(count / 20))
        .map(|_| {
            let longest = LONGEST >> random.below(10);
            let len = random.below(longest + 1);
            let levels = if random.coin() {
                256
            } else {
                1 + random.below(256)
            };
            let narrow: Vec<u8> = (0..len).map(|_| random.below(levels) as u8).collect();
            let places = match random.below(5) {
                0 => random.below(2 * len + 2),
                _ => len,
            };
            WideningCase { narrow, places }
        })
        .collect()
}

#[cfg(test)]
mod tests {
    use super::*;
    use std::collections::BTreeSet;

    #[test]
    fn group_names_are_all_different() {
        let names: BTreeSet<&str> = WIDENINGS.iter().map(|group| group.name).collect();
        assert_eq!(names.len(), WIDENINGS.len());
    }
}
