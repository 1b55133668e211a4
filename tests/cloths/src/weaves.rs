//! The examples: small cloths as a designer might scan them.

use crate::random::Random;
use crate::stored::Made;
use crate::swatch::Swatch;
use crate::yarns::noisy;
use reference::cards::Pixel;

pub fn examples() -> Vec<Made> {
    [
        ("tartan", tartan()),
        ("ikat", ikat()),
        ("tweed", tweed()),
        ("indigo", indigo()),
        ("undyed", undyed()),
        ("shot-silk", shot_silk()),
    ]
    .map(|(name, swatch)| Made {
        name,
        number: 0,
        text: swatch.text(),
    })
    .to_vec()
}

/// The yarn of each thread, from stripes of this many threads each.
fn threads(stripes: &[(Pixel, usize)]) -> Vec<Pixel> {
    let runs = stripes.iter().map(|&(yarn, count)| vec![yarn; count]);
    runs.flatten().collect()
}

/// Over two, under two.
fn twill(column: usize, row: usize) -> bool {
    (column + row) % 4 < 2
}

fn tartan() -> Swatch {
    const RED: Pixel = [176, 24, 32];
    const GREEN: Pixel = [24, 88, 48];
    const NAVY: Pixel = [28, 36, 84];
    const WHITE: Pixel = [228, 226, 222];
    let sett = threads(&[
        (RED, 10),
        (GREEN, 8),
        (NAVY, 4),
        (WHITE, 2),
        (NAVY, 4),
        (GREEN, 8),
        (RED, 12),
    ]);
    let mut random = Random::new(1);
    Swatch::new(48, 48, |column, row| {
        let yarn = if twill(column, row) {
            sett[column]
        } else {
            sett[row]
        };
        noisy(&mut random, yarn, 3)
    })
}

/// Bound and dyed before weaving, so that each thread's colours begin a little earlier or later.
fn ikat() -> Swatch {
    const INDIGO: Pixel = [38, 52, 110];
    const CREAM: Pixel = [236, 222, 190];
    const RUST: Pixel = [164, 70, 36];
    let bands = threads(&[
        (INDIGO, 9),
        (CREAM, 5),
        (RUST, 6),
        (CREAM, 5),
        (INDIGO, 9),
        (CREAM, 4),
        (RUST, 6),
    ]);
    let mut random = Random::new(2);
    let starts: Vec<usize> = (0..40).map(|_| random.below(5)).collect();
    Swatch::new(40, 40, |column, row| {
        noisy(&mut random, bands[row + starts[column]], 3)
    })
}

fn tweed() -> Swatch {
    const DARK: Pixel = [70, 70, 72];
    const MIDDLE: Pixel = [124, 122, 120];
    const LIGHT: Pixel = [188, 186, 182];
    const FLECK: Pixel = [190, 92, 30];
    let mut random = Random::new(3);
    Swatch::new(36, 36, |column, row| {
        // A herringbone: the twill turns round every six threads.
        let turned = if column / 6 % 2 == 0 {
            column
        } else {
            47 - column
        };
        let yarn = match random.below(40) {
            0 => FLECK,
            1..=8 => MIDDLE,
            _ if twill(turned, row) => LIGHT,
            _ => DARK,
        };
        noisy(&mut random, yarn, 2)
    })
}

/// One hue: many dips for the ground, few for the stripes.
fn indigo() -> Swatch {
    const DEEP: Pixel = [26, 36, 92];
    const PALE: Pixel = [120, 140, 196];
    let mut random = Random::new(4);
    Swatch::new(36, 24, |column, _| {
        let yarn = if column % 9 < 6 { DEEP } else { PALE };
        noisy(&mut random, yarn, 3)
    })
}

/// Wool as it comes, with the shadows between the threads.
fn undyed() -> Swatch {
    let mut random = Random::new(5);
    Swatch::new(24, 24, |column, row| {
        let level: u8 = if column % 4 == 3 || row % 4 == 3 {
            120
        } else {
            206
        };
        noisy(&mut random, [level + 4, level + 2, level], 4)
    })
}

/// A warp of one colour and a weft of another.
fn shot_silk() -> Swatch {
    const WARP: Pixel = [196, 30, 96];
    const WEFT: Pixel = [226, 150, 20];
    let mut random = Random::new(6);
    Swatch::new(32, 24, |column, row| {
        let yarn = if (column + row) % 2 == 0 { WARP } else { WEFT };
        noisy(&mut random, yarn, 5)
    })
}
