//! The named groups of rings that are turned, each of which is one test.

use crate::closenesses;
use crate::joined_shapes::{self, JOINED_SHAPES};
use crate::mode_groups::ModesCase;
use crate::mode_shapes;
use crate::shapes::{Shape, SHAPES};
use crate::turned_rings::{Kind, TurnedCase, Turns};
use cloths::random::Random;
use reference::calls::{LEAST_CLOSENESS, MOST_BINS, MOST_CLOSENESS};
use reference::rings;

/// A group: its rings, how many of them following from the count of the run, and what they have to be.
pub struct TurnedGroup {
    pub name: &'static str,
    pub cases: fn(&mut Random, usize) -> Vec<TurnedCase>,
    pub kind: Kind,
    /// In thousandths of the rings.
    pub least: Turns,
}

// The least numbers are well below what the run without arguments has, so that another seed does not fall below by chance.
pub const TURNED: [TurnedGroup; 4] = [
    TurnedGroup {
        name: "2, 3, 59, 60 and 256 bins",
        cases: stated_lengths,
        kind: Kind::SingleLowest,
        least: Turns {
            several: 60,
            reordered: 40,
            joined: 20,
            ..NOTHING
        },
    },
    TurnedGroup {
        name: "drawn",
        cases: drawn,
        kind: Kind::SingleLowest,
        least: Turns {
            several: 100,
            reordered: 70,
            joined: 40,
            ..NOTHING
        },
    },
    TurnedGroup {
        name: "several lowest bins",
        cases: several_lowest,
        kind: Kind::SeveralLowest,
        least: Turns {
            astray: 400,
            parted: 75,
            ..NOTHING
        },
    },
    TurnedGroup {
        name: "grounds",
        cases: grounds,
        kind: Kind::SingleLowest,
        least: NOTHING,
    },
];

const NOTHING: Turns = Turns {
    several: 0,
    reordered: 0,
    joined: 0,
    astray: 0,
    parted: 0,
};

/// The largest sum that is served.
const MOST_COUNTS: u32 = 65_536;

/// Shapes for any number of bins.
const ANY_LENGTH: [Shape; 3] = [small_counts, all_equal_but_one, large_counts];

/// For as many bins as there are hues: these, and humps with noise.
const AS_HUES: [Shape; 4] = [small_counts, all_equal_but_one, large_counts, noisy_humps];

/// No bin, one bin, one bin back, a full turn, one more, and any number beyond.
fn turns(random: &mut Random, bins: usize) -> Vec<usize> {
    let beyond = bins + 2 + random.below(1_000_000);
    vec![0, 1, bins - 1, bins, bins + 1, beyond]
}

fn served(random: &mut Random, ring: Vec<u32>, closeness: i32) -> TurnedCase {
    let (bins, places) = (ring.len(), ring.len());
    TurnedCase {
        given: ModesCase {
            histogram: ring,
            closeness,
            places,
        },
        number: 0,
        turns: turns(random, bins),
    }
}

/// As many as are judged by the least numbers. Most are of two and three bins: the others take the reference longer, and
/// each of them seven times.
fn stated_lengths(random: &mut Random, _: usize) -> Vec<TurnedCase> {
    let mut cases = shortest(random);
    cases.extend(as_hues(random));
    cases.extend(longest(random));
    cases
}

/// Every shape at every closeness.
fn shortest(random: &mut Random) -> Vec<TurnedCase> {
    (0..380)
        .map(|index| {
            let (bins, place) = (2 + index % 2, index / 2);
            let ring = ANY_LENGTH[place % ANY_LENGTH.len()](random, bins);
            served(random, ring, closenesses::in_turn(place))
        })
        .collect()
}

/// Half of them made for joins past the opening, the others at every closeness.
fn as_hues(random: &mut Random) -> Vec<TurnedCase> {
    (0..128)
        .map(|index| {
            let (bins, place) = (59 + index % 2, index / 4);
            if index / 2 % 2 == 0 {
                return joined(random, JOINED_SHAPES[place % JOINED_SHAPES.len()], bins);
            }
            let ring = AS_HUES[place % AS_HUES.len()](random, bins);
            served(random, ring, closenesses::in_turn(place))
        })
        .collect()
}

/// Few, as these take the reference a tenth of a second each time.
fn longest(random: &mut Random) -> Vec<TurnedCase> {
    let mut cases: Vec<TurnedCase> = JOINED_SHAPES
        .map(|shape| joined(random, shape, MOST_BINS))
        .into();
    for (humps, closeness) in [(2, LEAST_CLOSENESS), (3, 0), (4, MOST_CLOSENESS)] {
        let ring = one_lowest(mode_shapes::smooth_humps(random, MOST_BINS, humps));
        let ring = filled_up(random, ring);
        cases.push(served(random, ring, closeness));
    }
    let ring = all_equal_but_one(random, MOST_BINS);
    cases.push(served(random, ring, 0));
    cases
}

/// Made for joins past the opening, at a closeness near the one that joins.
fn joined(random: &mut Random, shape: Shape, bins: usize) -> TurnedCase {
    let ring = one_lowest(shape(random, bins));
    let closeness = joined_shapes::near_joining_closeness(random, &ring);
    served(random, ring, closeness)
}

/// Of many lengths; half of them made for joins past the opening.
fn drawn(random: &mut Random, count: usize) -> Vec<TurnedCase> {
    (0..count / 50)
        .map(|index| {
            if index % 2 == 0 {
                let bins = joined_shapes::bins(random);
                joined(random, JOINED_SHAPES[index / 2 % JOINED_SHAPES.len()], bins)
            } else {
                let bins = mode_shapes::bins(random);
                let shape = ANY_LENGTH[random.below(ANY_LENGTH.len())];
                let ring = shape(random, bins);
                served(random, ring, closenesses::in_turn(index / 2))
            }
        })
        .collect()
}

/// The opening's count once more in some other bin.
fn several_lowest(random: &mut Random, count: usize) -> Vec<TurnedCase> {
    (0..count / 100)
        .map(|index| {
            let bins = joined_shapes::FEWEST_BINS + random.below(12);
            let mut ring = JOINED_SHAPES[index % JOINED_SHAPES.len()](random, bins);
            let opening = opening(&ring);
            let other = (opening + 1 + random.below(bins - 1)) % bins;
            ring[other] = ring[opening];
            let closeness = joined_shapes::near_joining_closeness(random, &ring);
            served(random, ring, closeness)
        })
        .collect()
}

/// Each ground from outside its limit.
fn grounds(random: &mut Random, _: usize) -> Vec<TurnedCase> {
    let mut cases = Vec::new();
    for (number, ring, closeness, short) in [
        (6, vec![5], 0, 0),
        (6, one_lowest(vec![1; MOST_BINS + 1]), 0, 0),
        (7, vec![4, 65_530, 3], 0, 0),
        (7, one_lowest(vec![257; MOST_BINS]), 0, 0),
        (8, vec![4, 9, 3], LEAST_CLOSENESS - 1, 0),
        (8, vec![4, 9, 3], MOST_CLOSENESS + 1, 0),
        (10, vec![4, 9, 3], 0, 1),
        (10, one_lowest(vec![7; MOST_BINS]), 0, 1),
    ] {
        let mut case = served(random, ring, closeness);
        case.given.places -= short;
        cases.push(TurnedCase { number, ..case });
    }
    cases
}

fn small_counts(random: &mut Random, bins: usize) -> Vec<u32> {
    let top = random.within(1, 9);
    one_lowest((0..bins).map(|_| random.within(0, top)).collect())
}

/// A hump is up to a quarter of the bins wide, so there have to be four or more.
fn noisy_humps(random: &mut Random, bins: usize) -> Vec<u32> {
    one_lowest(mode_shapes::cloth(random, bins))
}

/// One level, and one bin below it.
fn all_equal_but_one(random: &mut Random, bins: usize) -> Vec<u32> {
    let level = random.within(1, MOST_COUNTS / bins as u32);
    let mut ring = vec![level; bins];
    ring[random.below(bins)] = random.within(0, level - 1);
    ring
}

/// Any shape, with the largest sum that is served.
fn large_counts(random: &mut Random, bins: usize) -> Vec<u32> {
    let shape = SHAPES[random.below(SHAPES.len())];
    let ring = one_lowest(shape(random, bins));
    filled_up(random, ring)
}

/// What is missing to that sum is added to one bin, not to the opening.
fn filled_up(random: &mut Random, mut ring: Vec<u32>) -> Vec<u32> {
    let other = (opening(&ring) + 1 + random.below(ring.len() - 1)) % ring.len();
    ring[other] += MOST_COUNTS - ring.iter().sum::<u32>();
    ring
}

/// The ring with its lowest count in one bin only, at its opening. The sum stays one that is served: where counts of 0
/// are raised to 1, the highest bin has more than enough to give for it.
fn one_lowest(mut ring: Vec<u32>) -> Vec<u32> {
    let opening = opening(&ring);
    if ring[opening] > 0 {
        ring[opening] -= 1;
        return ring;
    }
    ring.iter_mut().for_each(|count| *count = (*count).max(1));
    ring[opening] = 0;
    let over = ring.iter().sum::<u32>().saturating_sub(MOST_COUNTS);
    if let Some(highest) = ring.iter_mut().max() {
        *highest -= over;
    }
    ring
}

fn opening(ring: &[u32]) -> usize {
    rings::opening(&widened(ring))
}

fn widened(ring: &[u32]) -> Vec<u64> {
    ring.iter().map(|&count| u64::from(count)).collect()
}

#[cfg(test)]
mod tests {
    use super::*;
    use crate::round_joins::FEWEST_JUDGED;
    use reference::calls::first_ground;
    use reference::turns::lowest_bins;
    use std::collections::BTreeSet;

    /// Those of a group, with a count that draws some hundreds.
    fn cases(name: &str) -> Vec<TurnedCase> {
        let group = TURNED.iter().find(|group| group.name == name);
        (group.expect(name).cases)(&mut Random::new(1), 20_000)
    }

    #[test]
    fn each_ring_has_as_many_lowest_bins_as_its_group_says_and_gets_its_number() {
        for group in &TURNED {
            for TurnedCase { given, number, .. } in cases(group.name) {
                let ring = &given.histogram;
                let single = matches!(group.kind, Kind::SingleLowest);
                assert_eq!(lowest_bins(ring) == 1, single, "{ring:?}");
                let ground = first_ground(ring, Some(given.closeness), Some(given.places));
                assert_eq!(ground, number, "{ring:?}");
                assert_eq!(number > 0, group.name == "grounds");
            }
        }
    }

    #[test]
    fn grounds_6_7_8_and_10_are_met() {
        let numbers: BTreeSet<u32> = cases("grounds").iter().map(|case| case.number).collect();
        assert!(numbers.into_iter().eq([6, 7, 8, 10]));
    }

    #[test]
    fn each_ring_is_turned_by_none_by_one_back_all_round_and_beyond() {
        for case in TURNED.iter().flat_map(|group| cases(group.name)) {
            let bins = case.given.histogram.len();
            let (stated, beyond) = case.turns.split_at(5);
            assert_eq!(stated, [0, 1, bins - 1, bins, bins + 1]);
            assert!(matches!(beyond, [by] if *by > bins + 1));
        }
    }

    /// And as many rings as are judged by the least numbers.
    #[test]
    fn the_stated_lengths_are_there_at_every_closeness() {
        let cases = cases("2, 3, 59, 60 and 256 bins");
        assert!(cases.len() as u64 >= FEWEST_JUDGED);
        let bins = |case: &TurnedCase| case.given.histogram.len();
        let lengths: BTreeSet<usize> = cases.iter().map(bins).collect();
        assert!(lengths.into_iter().eq([2, 3, 59, 60, 256]));
        for length in [2, 3, 59, 60] {
            let of_it = cases.iter().filter(|case| bins(case) == length);
            let met: BTreeSet<i32> = of_it.map(|case| case.given.closeness).collect();
            assert!(met.into_iter().eq(LEAST_CLOSENESS..=MOST_CLOSENESS));
        }
    }

    /// Two or three bins are too few for several modes.
    #[test]
    fn some_rings_of_each_longer_length_have_several_modes() {
        let cases = cases("2, 3, 59, 60 and 256 bins");
        let several = |case: &&TurnedCase| {
            let counts = widened(&case.given.histogram);
            rings::finished(&counts, case.given.closeness).modes.len() > 1
        };
        let several = cases.iter().filter(several);
        let lengths: BTreeSet<usize> = several.map(|case| case.given.histogram.len()).collect();
        assert!(lengths.into_iter().eq([59, 60, 256]));
    }

    #[test]
    fn some_rings_of_each_length_have_the_largest_sum() {
        let cases = cases("2, 3, 59, 60 and 256 bins");
        let full = |case: &&TurnedCase| case.given.histogram.iter().sum::<u32>() == MOST_COUNTS;
        let full = cases.iter().filter(full);
        let lengths: BTreeSet<usize> = full.map(|case| case.given.histogram.len()).collect();
        assert!(lengths.into_iter().eq([2, 3, 59, 60, 256]));
    }
}
