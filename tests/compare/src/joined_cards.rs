//! Swatches made so that hue modes are joined past the opening of the ring of hues.

use crate::joined_shapes::JOINED_SHAPES;
use cloths::random::Random;
use cloths::yarns::any_grey;
use reference::cards::Pixel;
use reference::measures::measures;
use std::sync::LazyLock;

pub type JoinedCardShape = fn(&mut Random) -> Vec<Pixel>;

const HUE_BINS: usize = 60;

/// Colours as strong as can be, by hue bin.
static STRONG: LazyLock<[Vec<Pixel>; HUE_BINS]> = LazyLock::new(|| {
    let mut by_bin = [const { Vec::new() }; HUE_BINS];
    for level in 0..=255 {
        for pixel in [
            [255, level, 0],
            [255, 0, level],
            [level, 255, 0],
            [0, 255, level],
            [level, 0, 255],
            [0, level, 255],
        ] {
            by_bin[hue(pixel)].push(pixel);
        }
    }
    by_bin
});

fn hue([red, green, blue]: Pixel) -> usize {
    measures(red, green, blue).hue.into()
}

/// The histogram of the hues.
pub fn hues(pixels: &[Pixel]) -> Vec<u32> {
    let mut bins = vec![0; HUE_BINS];
    for &[red, green, blue] in pixels {
        let measures = measures(red, green, blue);
        bins[usize::from(measures.hue)] += u32::from(!measures.grey);
    }
    bins
}

/// As many pixels of each hue as one of the rings that are made for such joins has in that bin.
pub fn hues_of_a_ring(random: &mut Random) -> Vec<Pixel> {
    let ring = JOINED_SHAPES[random.below(JOINED_SHAPES.len())](random, HUE_BINS);
    let bins = ring.iter().enumerate();
    let hues: Vec<usize> = bins
        .flat_map(|(bin, &count)| vec![bin; count as usize])
        .collect();
    dyed(random, &hues)
}

/// A yarn with hues on both sides of bin 0, one of which has no pixel, and one or two yarns of other hues. The ring opens
/// in the bin that was left out, unless one before it has no pixel by chance.
pub fn hue_left_out(random: &mut Random) -> Vec<Pixel> {
    let left_out = random.below(3);
    let near = 2 + random.below(4);
    let mut hues = yarn(random, HUE_BINS + left_out, near, 150);
    hues.retain(|&bin| bin != left_out);
    for _ in 0..1 + random.below(2) {
        let middle = 15 + random.below(30);
        let near = 1 + random.below(4);
        hues.extend(yarn(random, middle, near, 150));
    }
    dyed(random, &hues)
}

/// Hue bins on both sides of the middle, those farther away less often.
fn yarn(random: &mut Random, middle: usize, near: usize, most: u32) -> Vec<usize> {
    (0..random.within(most / 8, most))
        .map(|_| (middle + random.below(near + 1) - random.below(near + 1)) % HUE_BINS)
        .collect()
}

/// A pixel of each of these hues, in one of a few tints, and sometimes greys among them.
fn dyed(random: &mut Random, hues: &[usize]) -> Vec<Pixel> {
    let tints = 1 + random.below(3);
    let mut pixels: Vec<Pixel> = hues
        .iter()
        .map(|&bin| {
            let strong = STRONG[bin][random.below(STRONG[bin].len())];
            let share = [256, 170, 110][random.below(tints)];
            let darker = strong.map(|level| (u32::from(level) * share / 256) as u8);
            // Rounding can take it to the next bin.
            if hue(darker) == bin {
                darker
            } else {
                strong
            }
        })
        .collect();
    if random.one_in(4) {
        let greys = random.below(40);
        pixels.extend((0..greys).map(|_| any_grey(random)));
    }
    shuffled(random, pixels)
}

pub fn shuffled(random: &mut Random, mut pixels: Vec<Pixel>) -> Vec<Pixel> {
    for place in 1..pixels.len() {
        pixels.swap(place, random.below(place + 1));
    }
    pixels
}

#[cfg(test)]
mod tests {
    use super::*;

    #[test]
    fn each_hue_has_strong_colours() {
        for (bin, colours) in STRONG.iter().enumerate() {
            assert!(colours.len() >= 10, "bin {bin}");
        }
    }

    #[test]
    fn pixels_have_the_hues_asked_for() {
        let asked: Vec<usize> = (0..HUE_BINS).flat_map(|bin| vec![bin; bin % 7]).collect();
        for seed in 0..20 {
            let found = hues(&dyed(&mut Random::new(seed), &asked));
            let counts: Vec<u32> = (0..HUE_BINS as u32).map(|bin| bin % 7).collect();
            assert_eq!(found, counts);
        }
    }

    #[test]
    fn the_hue_left_out_has_no_pixel_and_hues_beside_it_have() {
        let mut beside = 0;
        for seed in 0..100 {
            let hues = hues(&hue_left_out(&mut Random::new(seed)));
            let dip = (0..3).find(|&bin| hues[bin] == 0).expect("one is left out");
            beside += u32::from(hues[dip + 1] > 0 && hues[(dip + HUE_BINS - 1) % HUE_BINS] > 0);
        }
        assert!(beside > 80, "{beside}");
    }
}
