//! Random pixels of many kinds. A shape takes the number of pixels.

use cloths::random::Random;
use cloths::yarns::{any_colour, any_grey, noisy, woven, yarns};
use reference::cards::Pixel;
use reference::measures::measures;

pub type CardShape = fn(&mut Random, usize) -> Vec<Pixel>;

pub fn noise(random: &mut Random, pixels: usize) -> Vec<Pixel> {
    (0..pixels).map(|_| any_colour(random)).collect()
}

/// Yarns with noise, some of them rare.
pub fn clusters(random: &mut Random, pixels: usize) -> Vec<Pixel> {
    let count = 1 + random.below(10);
    let yarns = yarns(random, count);
    spun(random, pixels, &yarns)
}

fn spun(random: &mut Random, pixels: usize, yarns: &[Pixel]) -> Vec<Pixel> {
    let noise = random.within(0, 12);
    let rare = random.coin();
    (0..pixels)
        .map(|_| {
            // The smaller of two numbers: the first yarns come most often.
            let (a, b) = (random.below(yarns.len()), random.below(yarns.len()));
            let yarn = if rare { a.min(b) } else { a };
            noisy(random, yarns[yarn], noise)
        })
        .collect()
}

/// Two to eight yarns as warp and weft; the last rows may be short of threads.
pub fn cloth(random: &mut Random, pixels: usize) -> Vec<Pixel> {
    let count = 2 + random.below(7);
    let yarns = yarns(random, count);
    let side = pixels.isqrt().max(1);
    let noise = random.within(0, 5);
    woven(random, side, pixels / side, &yarns, noise).pixels
}

pub fn greys(random: &mut Random, pixels: usize) -> Vec<Pixel> {
    let yarns: Vec<Pixel> = (0..1 + random.below(8)).map(|_| any_grey(random)).collect();
    let even = random.one_in(4);
    let noise = random.within(0, 4);
    (0..pixels)
        .map(|_| {
            let grey = if even {
                any_grey(random)
            } else {
                let yarn = random.below(yarns.len());
                noisy(random, yarns[yarn], noise)
            };
            if is_grey(grey) {
                grey
            } else {
                [grey[0]; 3]
            }
        })
        .collect()
}

pub fn colours(random: &mut Random, pixels: usize) -> Vec<Pixel> {
    let mut found = clusters(random, pixels);
    for pixel in &mut found {
        while is_grey(*pixel) {
            *pixel = any_colour(random);
        }
    }
    found
}

fn is_grey([red, green, blue]: Pixel) -> bool {
    measures(red, green, blue).grey
}

/// One or two hues of many saturations and intensities: mixtures of a strong colour, black and white.
pub fn tints(random: &mut Random, pixels: usize) -> Vec<Pixel> {
    let strong: Vec<Pixel> = (0..1 + random.below(2))
        .map(|_| any_colour(random))
        .collect();
    let steps = random.within(1, 8);
    (0..pixels)
        .map(|_| {
            let colour = strong[random.below(strong.len())];
            let share = random.within(0, steps) * 256 / steps;
            let light = random.within(0, steps) * (256 - share) / steps;
            colour.map(|level| (u32::from(level) * share / 256 + light.min(255)).min(255) as u8)
        })
        .collect()
}

/// Hues next to bins 59 and 0, and sometimes others too.
pub fn over_the_seam(random: &mut Random, pixels: usize) -> Vec<Pixel> {
    let others = random.below(3);
    let yarns: Vec<Pixel> = (0..others).map(|_| any_colour(random)).collect();
    let spread = random.within(1, 30);
    (0..pixels)
        .map(|_| {
            if others > 0 && random.one_in(3) {
                let yarn = yarns[random.below(others)];
                return noisy(random, yarn, 3);
            }
            // Red halfway between green and blue is hue bin 0; a little more red is bin 59.
            let green = random.within(150, 255);
            let red = green / 2 + random.within(0, 2 * spread);
            [red.saturating_sub(spread).min(255) as u8, green as u8, 0]
        })
        .collect()
}

/// From one colour to the next and the next, with noise or without.
pub fn gradients(random: &mut Random, pixels: usize) -> Vec<Pixel> {
    let stops: Vec<Pixel> = (0..2 + random.below(3))
        .map(|_| any_colour(random))
        .collect();
    let noise = random.within(0, 4);
    let lengths = stops.len() - 1;
    (0..pixels)
        .map(|place| {
            let at = place * lengths * 256 / pixels;
            let (from, to) = (stops[at / 256], stops[at / 256 + 1]);
            let share = (at % 256) as u32;
            let mixed = [0, 1, 2].map(|channel| {
                let (a, b) = (u32::from(from[channel]), u32::from(to[channel]));
                ((a * (256 - share) + b * share) / 256) as u8
            });
            noisy(random, mixed, noise)
        })
        .collect()
}

/// Pixels on both sides of the limit between grey and colour.
pub fn nearly_grey(random: &mut Random, pixels: usize) -> Vec<Pixel> {
    let base = random.within(0, 235);
    let spread = random.within(0, 20);
    (0..pixels)
        .map(|_| {
            let level = base + random.within(0, spread);
            [(); 3].map(|()| (level + random.within(0, 16)).min(255) as u8)
        })
        .collect()
}

/// Few levels in each channel, so that all histograms are spikes.
pub fn few_levels(random: &mut Random, pixels: usize) -> Vec<Pixel> {
    let levels = random.within(2, 7);
    let step = 255 / (levels - 1);
    (0..pixels)
        .map(|_| [(); 3].map(|()| (step * random.within(0, levels - 1)) as u8))
        .collect()
}

pub fn all_equal(random: &mut Random, pixels: usize) -> Vec<Pixel> {
    vec![any_colour(random); pixels]
}

pub const SHAPES: [CardShape; 11] = [
    noise,
    clusters,
    cloth,
    greys,
    colours,
    tints,
    over_the_seam,
    gradients,
    nearly_grey,
    few_levels,
    all_equal,
];
