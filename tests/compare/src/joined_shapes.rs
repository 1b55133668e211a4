//! Rings made so that modes are joined past the opening, which random ones seldom are. They open in a narrow dip inside
//! a hump, and the valleys between the humps are wide.

use crate::shapes::Shape;
use cloths::random::Random;
use reference::calls::{LEAST_CLOSENESS, MOST_CLOSENESS};
use reference::logarithm::UNIT;
use reference::test::verdict;
use reference::{lines, rings};

/// The fewest bins of these shapes: a hump with a dip inside takes three, a valley two. Rings of two and three bins have
/// one mode before anything is joined, and among those of four the tests below find no join past the opening.
pub const FEWEST_BINS: usize = 5;

/// All of them.
pub const JOINED_SHAPES: [Shape; 5] = [
    flat_humps,
    sloping_humps,
    spikes_in_a_row,
    few_levels,
    mirror_images,
];

/// Closeness and counts of rings that tell readings of the rules apart. The reference's own tests have them too.
pub const JOINED_SAMPLES: [(i32, &[u32]); 12] = [
    (0, &[5, 0, 20, 0, 0]),
    (2, &[9, 30, 10, 10, 10, 10, 30]),
    // Rise and fall cost the same.
    (3, &[9, 30, 11, 10, 11, 30]),
    // Two modes are left.
    (-3, &[1, 0, 6, 0, 6, 0, 0]),
    (3, &[2, 20, 2, 2, 2, 13, 1, 20, 2, 2]),
    // Joins follow each other.
    (-1, &[4, 0, 4, 0, 9, 0, 4, 0, 0, 0]),
    (1, &[5, 0, 20, 5, 20, 0, 20, 0, 0]),
    // A pair goes before a full turn.
    (1, &[2, 13, 2, 13, 5, 1, 13, 2, 13, 2]),
    // Of two full turns the one that starts later costs less; they cost the same.
    (-1, &[6, 2, 13, 4, 3, 3, 13, 11, 14, 3, 13]),
    (-3, &[1, 0, 1, 0, 6, 0]),
    // After a first join two runs cost the same.
    (-3, &[7, 3, 3, 3, 8, 2, 3, 7, 9, 3]),
    // The pair past the opening costs exactly 0.
    (2, &[9, 21_710, 11, 11, 32]),
];

/// The lowest closeness at which the two first segments beside the opening can be joined past it, or the served one next
/// to it. There the dip at the opening is just light enough, and what weighs more still divides.
pub fn joining_closeness(ring: &[u32]) -> i32 {
    let counts: Vec<u64> = ring.iter().map(|&count| u64::from(count)).collect();
    let opening = rings::opening(&counts);
    let own_number = |bin| (opening + bin) % counts.len();
    let segments = lines::first_segments(&rings::opened(&counts));
    let (first, last) = (segments[0], segments[segments.len() - 1]);
    let rise = rings::rise(&counts, own_number(last.start), own_number(first.peak));
    let fall = rings::fall(&counts, own_number(last.peak), own_number(first.end));
    let cost_at_0 = verdict(&rise, true, 0)
        .cost
        .min(verdict(&fall, false, 0).cost);
    // One more takes a unit off the cost, which is to be below 0.
    let closeness = cost_at_0.div_euclid(UNIT as i64) + 1;
    closeness.clamp(LEAST_CLOSENESS.into(), MOST_CLOSENESS.into()) as i32
}

/// That closeness; one less, where a longer run may be joined though no pair is; or one more.
pub fn near_joining_closeness(random: &mut Random, ring: &[u32]) -> i32 {
    let aside = [-1, 0, 0, 1][random.below(4)];
    (joining_closeness(ring) + aside).clamp(LEAST_CLOSENESS, MOST_CLOSENESS)
}

/// Most of 8 to 20 bins, some as long as a ring of hues.
pub fn bins(random: &mut Random) -> usize {
    match random.below(100) {
        0..=9 => FEWEST_BINS + random.below(3),
        10..=98 => 8 + random.below(13),
        _ => 59 + random.below(3),
    }
}

/// Humps with flat tops, and a dip that goes down to the valleys or one count further.
pub fn flat_humps(random: &mut Random, bins: usize) -> Vec<u32> {
    humps(random, bins, |_, _| 0)
}

/// The same with humps that fall off from their middle.
pub fn sloping_humps(random: &mut Random, bins: usize) -> Vec<u32> {
    let steep = 1 + random.within(0, 3);
    humps(random, bins, |level, from_middle| {
        (steep * from_middle as u32).min(level / 2)
    })
}

/// A hump of three bins or more, with the dip inside, and one to three others. What is taken off a hump's level follows
/// from the steps to its middle.
fn humps(random: &mut Random, bins: usize, off: impl Fn(u32, usize) -> u32) -> Vec<u32> {
    let top = height(random);
    let valley = random.within(0, top / 3);
    let count = 2 + random.below((bins / 7).clamp(1, 3));
    let share = bins / count;
    let mut ring = vec![valley; bins];
    let mut dip = 0;
    for hump in 0..count {
        let least = if hump == 0 { 3 } else { 1 };
        let wide = (share / 2 + random.below(share / 2)).clamp(least, least.max(share - 1));
        let level = 1 + random.within(top / 2, top);
        for bin in 0..wide {
            let from_middle = bin.abs_diff(wide / 2);
            ring[(hump * share + bin) % bins] = valley + level - off(level, from_middle);
        }
        if hump == 0 {
            dip = 1 + random.below(wide - 2);
        }
    }
    ring[dip] = valley.saturating_sub(random.within(0, 1));
    opened_at(random, ring, dip)
}

/// Spikes with one empty bin between them, and a wide empty valley with another spike in some. It opens in one of
/// the dips between them, which the joins then take in one by one.
pub fn spikes_in_a_row(random: &mut Random, bins: usize) -> Vec<u32> {
    let top = height(random);
    let mut ring = vec![0; bins];
    let spikes = 2 + random.below((bins / 4).clamp(1, 4));
    for spike in 0..spikes {
        ring[2 * spike] = top + random.within(0, top / 4);
    }
    let valley = 2 * spikes..bins;
    if random.coin() && !valley.is_empty() {
        ring[valley.start + random.below(valley.len())] = random.within(1, 2 * top);
    }
    let dip = 1 + 2 * random.below(spikes - 1);
    opened_at(random, ring, dip)
}

/// Steps of few levels, longer on long rings, and a hump with an empty bin inside.
pub fn few_levels(random: &mut Random, bins: usize) -> Vec<u32> {
    let top = height(random);
    let levels = [0, 0, 1 + random.within(0, top / 4), top];
    let longest = 2 + random.below(5.max(bins / 4));
    let wide = 3 + random.below(bins / 4);
    let dip = 1 + random.below(wide - 2);
    let mut ring = vec![top; wide];
    ring[dip] = 0;
    while ring.len() < bins {
        let level = levels[random.below(levels.len())];
        let run = 1 + random.below(longest);
        ring.extend(std::iter::repeat_n(level, run.min(bins - ring.len())));
    }
    opened_at(random, ring, dip)
}

/// The same on both sides of the dip, so that runs on one side cost what those on the other do: which of them is joined,
/// and which peak is kept, decides on the joins that follow.
pub fn mirror_images(random: &mut Random, bins: usize) -> Vec<u32> {
    let top = height(random);
    let low = random.within(0, top / 3);
    let levels = [top + low, top + low, 1 + low + random.within(0, top)];
    let longest = 1 + random.below(3.max(bins / 3));
    let mut side = Vec::new();
    while side.len() < bins / 2 {
        side.extend(vec![levels[random.below(3)]; 1 + random.below(2)]);
        side.extend(vec![low; 1 + random.below(longest)]);
    }
    let mut ring = vec![low.saturating_sub(1); bins];
    for step in 1..=bins / 2 {
        ring[step] = side[step - 1];
        ring[bins - step] = side[step - 1];
    }
    opened_at(random, ring, 0)
}

/// Low enough that most dips are joined at a closeness that is served.
fn height(random: &mut Random) -> u32 {
    let most = 1 << random.within(1, 6);
    1 + random.within(0, most)
}

/// Mirrored or not, and turned on by any number of bins with which the ring opens in this dip, one of its lowest bins.
fn opened_at(random: &mut Random, mut ring: Vec<u32>, dip: usize) -> Vec<u32> {
    let lowest = ring[dip];
    ring.rotate_left(dip);
    if random.coin() {
        // The dip comes first again.
        ring.reverse();
        ring.rotate_right(1);
    }
    let back_to_the_next = ring.iter().rev().take_while(|&&count| count > lowest);
    let most = back_to_the_next.count();
    ring.rotate_right(random.below(most + 1));
    ring
}

#[cfg(test)]
mod tests {
    use super::*;

    fn widened(ring: &[u32]) -> Vec<u64> {
        ring.iter().map(|&count| u64::from(count)).collect()
    }

    #[test]
    fn each_ring_opens_in_a_dip_of_one_bin() {
        let mut random = Random::new(1);
        for shape in JOINED_SHAPES {
            for bins in (FEWEST_BINS..=24)
                .chain([59, 60, 61, 255, 256])
                .cycle()
                .take(500)
            {
                let ring = shape(&mut random, bins);
                assert_eq!(ring.len(), bins);
                let opening = rings::opening(&widened(&ring));
                let (before, after) = ((opening + bins - 1) % bins, (opening + 1) % bins);
                assert!(ring[before] > ring[opening], "{ring:?}");
                assert!(ring[after] > ring[opening], "{ring:?}");
            }
        }
    }

    /// Of all the numbers of bins that it can be turned on by, and mirrored too.
    #[test]
    fn a_dip_as_low_as_the_valley_comes_before_it() {
        let mut random = Random::new(1);
        let mut met = std::collections::BTreeSet::new();
        for _ in 0..200 {
            met.insert(opened_at(&mut random, vec![4, 0, 6, 5, 0, 0], 1));
        }
        let expected = [
            [0, 6, 5, 0, 0, 4],
            [4, 0, 6, 5, 0, 0],
            [0, 4, 0, 0, 5, 6],
            [6, 0, 4, 0, 0, 5],
            [5, 6, 0, 4, 0, 0],
        ];
        assert_eq!(met, expected.map(Vec::from).into());
    }

    #[test]
    fn a_dip_lower_than_all_else_lies_anywhere() {
        let mut random = Random::new(1);
        let mut met = std::collections::BTreeSet::new();
        for _ in 0..300 {
            met.insert(opened_at(&mut random, vec![4, 0, 6, 5, 1, 1], 1));
        }
        assert_eq!(met.len(), 12);
    }

    /// One mode on each side of the opening, and nothing else that could be joined first.
    #[test]
    fn the_joining_closeness_is_the_lowest_that_joins() {
        for ring in [vec![5, 0, 20, 0, 0], vec![9, 30, 10, 10, 10, 10, 30]] {
            let closeness = joining_closeness(&ring);
            let joins = |closeness| rings::traits(&widened(&ring), closeness).joins;
            assert_eq!((joins(closeness - 1), joins(closeness)), (0, 1), "{ring:?}");
        }
    }

    #[test]
    fn rings_of_four_bins_or_fewer_are_not_joined_round() {
        let levels = [0, 1, 2, 3, 5, 9, 20, 40];
        for bins in 2..FEWEST_BINS as u32 {
            for code in 0..levels.len().pow(bins) {
                let digit = |bin| code / levels.len().pow(bin) % levels.len();
                let ring: Vec<u64> = (0..bins).map(|bin| levels[digit(bin)]).collect();
                for closeness in -4..=8 {
                    assert_eq!(rings::traits(&ring, closeness).joins, 0, "{ring:?}");
                }
            }
        }
    }
}
