//! Random histograms of many shapes. A shape takes the number of bins.

use cloths::random::Random;

pub type Shape = fn(&mut Random, usize) -> Vec<u32>;

/// The shapes from which long histograms are made too.
pub const SHAPES: [Shape; 8] = [
    noise,
    sparse,
    plateaus,
    equal_means,
    spikes,
    monotone,
    alternating,
    hump,
];

/// Many short histograms, few long ones: the reference weighs every part of each.
pub fn bins(random: &mut Random) -> usize {
    match random.below(1000) {
        0..=919 => 2 + random.below(15),
        920..=995 => 17 + random.below(48),
        _ => 65 + random.below(192),
    }
}

/// A highest count that keeps the sum of this many bins within the limit, small as often as large.
fn top(random: &mut Random, bins: usize) -> u32 {
    let most = 65_536 / bins as u32;
    most.min(1 << random.within(0, 16))
}

pub fn noise(random: &mut Random, bins: usize) -> Vec<u32> {
    let top = top(random, bins);
    (0..bins).map(|_| random.within(0, top)).collect()
}

pub fn sparse(random: &mut Random, bins: usize) -> Vec<u32> {
    let top = top(random, bins);
    let chances = 2 + random.below(20);
    (0..bins)
        .map(|_| {
            if random.one_in(chances) {
                random.within(0, top)
            } else {
                0
            }
        })
        .collect()
}

pub fn plateaus(random: &mut Random, bins: usize) -> Vec<u32> {
    let top = top(random, bins);
    let longest = 2 + random.below(8);
    let mut histogram = Vec::new();
    while histogram.len() < bins {
        let level = random.within(0, top);
        let run = 1 + random.below(longest);
        histogram.extend(std::iter::repeat_n(level, run.min(bins - histogram.len())));
    }
    histogram
}

/// Groups of bins that share one mean, so that blocks meet in ties. Counts are moved inside a group only: to earlier
/// bins, which a rising fit pools, to later ones, which a falling fit pools, or either way.
pub fn equal_means(random: &mut Random, bins: usize) -> Vec<u32> {
    let top = top(random, bins).max(2) / 2;
    let way = random.below(3);
    let mut histogram = vec![0; bins];
    let mut level = random.within(0, top);
    let mut first = 0;
    while first < bins {
        let end = bins.min(first + 1 + random.below(6));
        histogram[first..end].fill(level);
        for _ in 0..random.below(4) {
            let (a, b) = (
                first + random.below(end - first),
                first + random.below(end - first),
            );
            let (from, to) = match way {
                0 => (a.max(b), a.min(b)),
                1 => (a.min(b), a.max(b)),
                _ => (a, b),
            };
            let moved = random.within(0, histogram[from]);
            histogram[from] -= moved;
            histogram[to] += moved;
        }
        if random.one_in(5) {
            level = random.within(0, top);
        }
        first = end;
    }
    histogram
}

pub fn spikes(random: &mut Random, bins: usize) -> Vec<u32> {
    let mut histogram: Vec<u32> = (0..bins).map(|_| random.within(0, 2)).collect();
    let count = 1 + random.below(4);
    let highest = 60_000 / count as u32;
    for _ in 0..count {
        let height = highest.min(1 << random.within(0, 16));
        histogram[random.below(bins)] = random.within(0, height);
    }
    histogram
}

/// Sorted either way, in half of the cases with a few bins swapped.
pub fn monotone(random: &mut Random, bins: usize) -> Vec<u32> {
    let mut histogram = noise(random, bins);
    histogram.sort_unstable();
    if random.coin() {
        histogram.reverse();
    }
    if random.coin() {
        for _ in 0..1 + random.below(4) {
            let place = random.below(bins - 1);
            histogram.swap(place, place + 1);
        }
    }
    histogram
}

pub fn alternating(random: &mut Random, bins: usize) -> Vec<u32> {
    let top = top(random, bins);
    let levels = [random.within(0, top), random.within(0, top)];
    let flaw = 2 + random.below(40);
    (0..bins)
        .map(|bin| {
            if random.one_in(flaw) {
                random.within(0, top)
            } else {
                levels[bin % 2]
            }
        })
        .collect()
}

/// One rise and one fall, with noise on top.
pub fn hump(random: &mut Random, bins: usize) -> Vec<u32> {
    let top = top(random, bins).max(2) / 2;
    let peak = random.below(bins);
    let noise = random.within(0, top);
    (0..bins)
        .map(|bin| {
            let share = if bin <= peak {
                (bin + 1) as f64 / (peak + 1) as f64
            } else {
                (bins - bin) as f64 / (bins - peak) as f64
            };
            (share * f64::from(top)) as u32 + random.within(0, noise)
        })
        .collect()
}

/// Any shape, with counts added or taken until the sum is within 2 of the limit.
pub fn near_the_limit(random: &mut Random, bins: usize) -> Vec<u32> {
    let mut histogram = SHAPES[random.below(SHAPES.len())](random, bins);
    let wanted = random.within(65_534, 65_538);
    let sum: u32 = histogram.iter().sum();
    if sum < wanted {
        for _ in 0..random.below(bins) {
            let gap = wanted - histogram.iter().sum::<u32>();
            histogram[random.below(bins)] += random.within(0, gap);
        }
        let gap = wanted - histogram.iter().sum::<u32>();
        histogram[random.below(bins)] += gap;
    } else {
        let place = (0..bins)
            .max_by_key(|&bin| histogram[bin])
            .expect("there are bins");
        histogram[place] = histogram[place].saturating_sub(sum - wanted);
    }
    histogram
}

/// Counts of any size: one huge count, all huge, or a sum that comes out small if it is kept in 32 bits only.
pub fn huge(random: &mut Random, bins: usize) -> Vec<u32> {
    match random.below(3) {
        0 => {
            let mut histogram = noise(random, bins);
            histogram[random.below(bins)] = random.within(65_536, u32::MAX);
            histogram
        }
        1 => (0..bins).map(|_| u32::MAX - random.within(0, 3)).collect(),
        _ => {
            let mut histogram: Vec<u32> = (0..bins).map(|_| random.bits() as u32).collect();
            let rest = histogram[1..]
                .iter()
                .fold(0u32, |sum, &count| sum.wrapping_add(count));
            histogram[0] = random.within(0, 65_536).wrapping_sub(rest);
            histogram
        }
    }
}
