//! Random histograms for lines and rings, in addition to those of `shapes`.

use crate::shapes::SHAPES;
use cloths::random::Random;

/// Most of 4 to 24 bins: the reference weighs every part of every run, and those are as many as the fourth power of
/// the bins.
pub fn bins(random: &mut Random) -> usize {
    match random.below(1000) {
        0..=29 => 2 + random.below(2),
        30..=669 => 4 + random.below(9),
        670..=979 => 13 + random.below(8),
        _ => 21 + random.below(8),
    }
}

/// So few levels that many runs cost the same.
pub fn few_levels(random: &mut Random, bins: usize) -> Vec<u32> {
    let count = 2 + random.below(2);
    let top = (65_536 / bins as u32).min(1 << random.within(0, 10));
    let levels: Vec<u32> = (0..count).map(|_| random.within(0, top)).collect();
    (0..bins).map(|_| levels[random.below(count)]).collect()
}

/// A short pattern again and again, in half of the cases mirrored in the middle, with a flaw in some.
pub fn periods(random: &mut Random, bins: usize) -> Vec<u32> {
    let top = (65_536 / bins as u32).min(1 << random.within(0, 7));
    let period = 2 + random.below(5);
    let pattern: Vec<u32> = (0..period).map(|_| random.within(0, top)).collect();
    let mirror = random.coin();
    let mut histogram: Vec<u32> = (0..bins)
        .map(|bin| {
            let bin = if mirror { bin.min(bins - 1 - bin) } else { bin };
            pattern[bin % period]
        })
        .collect();
    if random.one_in(3) {
        histogram[random.below(bins)] = random.within(0, top);
    }
    histogram
}

/// Any shape, with its lowest count in other bins too.
pub fn lowest_repeated(random: &mut Random, bins: usize) -> Vec<u32> {
    let mut histogram = any(random, bins);
    let lowest = lowest(&histogram);
    for _ in 0..1 + random.below(4) {
        histogram[random.below(bins)] = lowest;
    }
    histogram
}

/// Any shape, with its lowest count in the last bins and in the first.
pub fn lowest_over_the_seam(random: &mut Random, bins: usize) -> Vec<u32> {
    let mut histogram = any(random, bins);
    let lowest = lowest(&histogram);
    let (first, last) = (1 + random.below(3), 1 + random.below(3));
    histogram[..first.min(bins)].fill(lowest);
    histogram[bins.saturating_sub(last)..].fill(lowest);
    histogram
}

/// Any shape, with one lowest bin or several, none of them bin 0.
pub fn turned(random: &mut Random, bins: usize) -> Vec<u32> {
    let mut histogram = any(random, bins);
    let lowest = lowest(&histogram);
    for _ in 0..1 + random.below(2) {
        histogram[1 + random.below(bins - 1)] = lowest;
    }
    histogram[0] = histogram[0].max(lowest + 1 + random.within(0, 3));
    histogram
}

fn any(random: &mut Random, bins: usize) -> Vec<u32> {
    SHAPES[random.below(SHAPES.len())](random, bins)
}

fn lowest(histogram: &[u32]) -> u32 {
    *histogram.iter().min().expect("there are bins")
}

/// Straight rises and falls without noise, so that there are hardly more segments than humps.
pub fn smooth_humps(random: &mut Random, bins: usize, humps: usize) -> Vec<u32> {
    let share = bins / humps;
    let top = 65_536 / bins as u32;
    let heights: Vec<u32> = (0..humps).map(|_| random.within(1, top)).collect();
    (0..bins)
        .map(|bin| {
            let height = heights[(bin / share).min(humps - 1)] as usize;
            let place = bin % share;
            (height * place.min(share - place) / share) as u32
        })
        .collect()
}

/// Some humps with noise on top, as the colours of a cloth give them.
pub fn cloth(random: &mut Random, bins: usize) -> Vec<u32> {
    let humps = 1 + random.below(5);
    let share = 1 << random.within(4, 13);
    let grain = 2 + random.within(0, 14);
    let mut histogram = vec![0; bins];
    for _ in 0..humps {
        let middle = random.below(bins);
        let width = 2 + random.below(bins / 4);
        let height = random.within(1, share);
        for (bin, count) in histogram.iter_mut().enumerate() {
            let near = width.saturating_sub(bin.abs_diff(middle)) as u32;
            *count += height * near / (width * width) as u32;
        }
    }
    for count in &mut histogram {
        let speck = random.within(0, 1);
        *count += random.within(0, *count / grain + speck);
    }
    histogram
}
