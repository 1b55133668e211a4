//! The stored swatches whose texts are well formed. All but one, which has too many entries, are served.

use crate::full_cards;
use crate::random::Random;
use crate::stored::Made;
use crate::swatch::Swatch;
use crate::yarns::{any_colour, any_grey, noisy, woven, yarns};
use reference::cards::Pixel;

const BLACK: Pixel = [0, 0, 0];
const WHITE: Pixel = [255, 255, 255];
const RED: Pixel = [255, 0, 0];
const GREEN: Pixel = [0, 255, 0];
const BLUE: Pixel = [0, 0, 255];

pub fn swatches() -> Vec<Made> {
    let mut made = vec![
        served("black-beside-red", row(&[(BLACK, 1), (RED, 1)])),
        served("red-beside-black", row(&[(RED, 1), (BLACK, 1)])),
        served(
            "black-above-red",
            Swatch::new(1, 2, |_, row| [BLACK, RED][row]),
        ),
        served("one-black-pixel", row(&[(BLACK, 1)])),
        served("one-white-pixel", row(&[(WHITE, 1)])),
        served("one-red-pixel", row(&[(RED, 1)])),
        served("greatest-grey", row(&[([13, 9, 0], 1)])),
        served("least-colour", row(&[([13, 10, 0], 1)])),
        served(
            "grey-beside-least-colour",
            row(&[([13, 9, 0], 3), ([13, 10, 0], 2)]),
        ),
        served("two-greys-joined", row(&[(BLACK, 1), (WHITE, 1)])),
        served("two-greys-apart", row(&[(BLACK, 20), (WHITE, 20)])),
        served(
            "three-greys",
            row(&[(WHITE, 20), (BLACK, 30), ([128; 3], 25)]),
        ),
        served("three-hues", row(&[(RED, 40), (BLUE, 40), (GREEN, 40)])),
        served(
            "hue-over-the-seam",
            row(&[
                ([100, 200, 0], 40),
                ([104, 200, 0], 40),
                ([100, 0, 200], 40),
            ]),
        ),
        served(
            "two-saturations",
            row(&[([120, 100, 100], 50), ([200, 40, 40], 50)]),
        ),
        served(
            "two-saturations-three-entries",
            row(&[
                ([225, 105, 105], 50),
                ([150, 30, 30], 50),
                ([120, 100, 100], 50),
            ]),
        ),
        served("means-of-a-half", row(&[([0; 3], 1), ([1; 3], 1)])),
        served("means-below-a-half", row(&[([0; 3], 2), ([1; 3], 1)])),
        served(
            "all-greys",
            Swatch::new(16, 16, |column, row| [(16 * row + column) as u8; 3]),
        ),
        served("hue-circle", hue_circle()),
        served("noise", noise(30, 30)),
        served("noise-of-greys", noise_of_greys()),
        served("cloth-of-five-yarns", cloth(32, 32, 5)),
        served("crimsons-on-both-sides-of-the-opening", crimsons()),
        served("16384-pixels", cloth(128, 128, 9)),
        served("254-entries", full(254)),
        served("255-entries", full(255)),
        served("256-entries", full(256)),
        served("257-entries", full(257)),
        served("999-entries", full(999)),
        served("1000-entries", full(1_000)),
    ];
    made.push(Made {
        name: "1001-entries",
        number: 11,
        text: full(1_001).text(),
    });
    made
}

fn served(name: &'static str, swatch: Swatch) -> Made {
    Made {
        name,
        number: 0,
        text: swatch.text(),
    }
}

/// One row, with this many pixels of each colour.
fn row(runs: &[(Pixel, usize)]) -> Swatch {
    let runs = runs.iter().map(|&(pixel, count)| vec![pixel; count]);
    Swatch::row(runs.flatten().collect())
}

/// Once round all hues at full saturation.
fn hue_circle() -> Swatch {
    Swatch::new(48, 6, |column, row| {
        let part = (6 * row + column) % 48 / 8;
        let level = (column % 8 * 32) as u8;
        let pixel = [
            [255, level, 0],
            [255 - level, 255, 0],
            [0, 255, level],
            [0, 255 - level, 255],
            [level, 0, 255],
            [255, 0, 255 - level],
        ];
        pixel[part]
    })
}

fn noise(width: usize, height: usize) -> Swatch {
    let mut random = Random::new(30);
    Swatch::new(width, height, |_, _| any_colour(&mut random))
}

/// Two greys, one darker and rarer.
fn noise_of_greys() -> Swatch {
    let mut random = Random::new(31);
    let (light, dark) = (any_grey(&mut random), [60; 3]);
    Swatch::new(24, 24, |_, _| {
        let yarn = if random.one_in(5) { dark } else { light };
        noisy(&mut random, yarn, 3)
    })
}

fn cloth(width: usize, height: usize, count: usize) -> Swatch {
    let mut random = Random::new(32 + count as u64);
    let yarns = yarns(&mut random, count);
    woven(&mut random, width, height, &yarns, 2)
}

/// A Persian cloth whose crimson thread is unevenly dyed: hue bins 39 to 41 and 43 to 45. The ground is so rough that it
/// has specks of every hue bin except 42, where the ring therefore opens. Few seeds do that and also keep the crimsons
/// apart from the other yarns.
fn crimsons() -> Swatch {
    const GROUND: Pixel = [188, 192, 190];
    const GREEN: Pixel = [70, 110, 50];
    const INDIGO: Pixel = [38, 52, 110];
    let crimson = [95, 84, 73, 50, 37, 24].map(|blue| [150, 30, blue]);
    let mut random = Random::new(2268);
    Swatch::new(40, 30, |column, row| {
        let (yarn, noise) = match column {
            2 | 3 | 22 | 23 => (GREEN, 2),
            9 | 10 | 29 | 30 => (INDIGO, 2),
            15 => (crimson[row / 5], 2),
            _ => (GROUND, 10),
        };
        noisy(&mut random, yarn, noise)
    })
}

/// Ten pixels for each entry.
fn full(entries: usize) -> Swatch {
    let pixels = full_cards::pixels(entries, 10);
    Swatch {
        width: entries,
        height: 10,
        pixels,
    }
}
