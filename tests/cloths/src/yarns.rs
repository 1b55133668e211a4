//! Yarns, and cloths woven from them.

use crate::random::Random;
use crate::swatch::Swatch;
use reference::cards::Pixel;

/// A colour with up to `noise` levels more or less in each channel.
pub fn noisy(random: &mut Random, yarn: Pixel, noise: u32) -> Pixel {
    yarn.map(|level| {
        let moved = u32::from(level) + random.within(0, 2 * noise);
        moved.saturating_sub(noise).min(255) as u8
    })
}

pub fn any_colour(random: &mut Random) -> Pixel {
    [(); 3].map(|()| random.bits() as u8)
}

/// Equal in all channels, or nearly so: with noise of two levels it stays a grey.
pub fn any_grey(random: &mut Random) -> Pixel {
    let level = random.within(0, 255);
    [(); 3].map(|()| (level + random.within(0, 3)).min(255) as u8)
}

/// So many yarns, some of them grey.
pub fn yarns(random: &mut Random, count: usize) -> Vec<Pixel> {
    (0..count)
        .map(|_| {
            if random.one_in(4) {
                any_grey(random)
            } else {
                any_colour(random)
            }
        })
        .collect()
}

/// Warp and weft of the same stripes; a thread of the warp lies on top where column and row add up to an even number.
pub fn woven(
    random: &mut Random,
    width: usize,
    height: usize,
    yarns: &[Pixel],
    noise: u32,
) -> Swatch {
    let threads = stripes(random, width.max(height), yarns.len());
    Swatch::new(width, height, |column, row| {
        let on_top = if (column + row) % 2 == 0 { column } else { row };
        noisy(random, yarns[threads[on_top]], noise)
    })
}

/// The yarn of each thread: stripes of 1 to 12 threads. Every yarn comes once before one comes again.
fn stripes(random: &mut Random, threads: usize, yarns: usize) -> Vec<usize> {
    let mut stripes = Vec::new();
    let mut next = 0;
    while stripes.len() < threads {
        let len = 1 + random.below(12);
        stripes.extend(std::iter::repeat_n(next % yarns, len));
        next = if next + 1 < yarns {
            next + 1
        } else {
            yarns + random.below(yarns)
        };
    }
    stripes.truncate(threads);
    stripes
}
