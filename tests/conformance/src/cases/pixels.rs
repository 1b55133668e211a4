//! Pixels for the measures: every limit from both sides, and random ones.

use super::Case;
use crate::calls::Call;
use cloths::random::Random;
use cloths::yarns::{any_colour, any_grey};
use compare::card_shapes::nearly_grey;
use reference::cards::Pixel;
use reference::measures::measures;

const SEED: u64 = 101;
const ORDERS: [[usize; 3]; 6] = [
    [0, 1, 2],
    [0, 2, 1],
    [1, 0, 2],
    [1, 2, 0],
    [2, 0, 1],
    [2, 1, 0],
];

pub fn cases() -> Vec<Case> {
    let mut random = Random::new(SEED);
    let mut draw = |count, one: fn(&mut Random) -> Pixel| {
        let pixels = (0..count).map(|_| one(&mut random));
        pixels.collect::<Vec<Pixel>>()
    };
    let groups = [
        ("samples", samples()),
        ("the eight corners of the cube", corners()),
        (
            "intensity: the last sum of each bin and the first of the next",
            intensities(),
        ),
        (
            "grey: Q of 133, the greatest of a grey, and of 139, the least of a colour, in every order of the channels",
            grey_limit(),
        ),
        (
            "saturation: below and at each square, 2Q next to 75 j squared",
            squares(),
        ),
        (
            "hue: the first and the last pixel of each bin, by angle",
            hue_ends(),
        ),
        ("hue: the four axes, where a quarter begins", axes()),
        ("drawn: any pixel", draw(600, any_colour)),
        ("drawn: greys", draw(100, any_grey)),
        ("drawn: nearly grey", draw(200, |random| nearly_grey(random, 1)[0])),
    ];
    let one = |(what, pixels): (&str, Vec<Pixel>)| Case {
        what: what.to_string(),
        calls: pixels.into_iter().map(Call::Measures).collect(),
        kept_in: None,
    };
    groups.into_iter().map(one).collect()
}

fn samples() -> Vec<Pixel> {
    vec![
        [13, 9, 0],
        [13, 10, 0],
        [0, 255, 0],
        [0, 0, 255],
        [255, 0, 0],
        [100, 0, 200],
        [100, 200, 0],
    ]
}

pub fn corners() -> Vec<Pixel> {
    let corner = |code: u8| [4, 2, 1].map(|bit| if code & bit > 0 { 255 } else { 0 });
    (0..8).map(corner).collect()
}

fn intensities() -> Vec<Pixel> {
    let sums = (1..=51).flat_map(|bin| [15 * bin - 1, 15 * bin]);
    let mut pixels: Vec<Pixel> = sums.map(of_sum).collect();
    pixels.push([255; 3]);
    pixels
}

/// Nearly equal channels of this sum.
fn of_sum(sum: u16) -> Pixel {
    [sum / 3, (sum + 1) / 3, sum.div_ceil(3)].map(|level| level as u8)
}

/// At the dark end and at the light end.
fn grey_limit() -> Vec<Pixel> {
    let mut pixels = Vec::new();
    for pixel in flat_pixels(13) {
        if [133, 139].contains(&q(pixel)) {
            pixels.push(pixel);
            pixels.push(pixel.map(|level| 255 - level));
        }
    }
    pixels
}

/// Pixels with a channel of 0 and the others up to `top`.
fn flat_pixels(top: u8) -> Vec<Pixel> {
    let mut pixels = Vec::new();
    for a in 0..=top {
        for b in 0..=top {
            pixels.extend([[a, b, 0], [a, 0, b], [0, a, b]]);
        }
    }
    pixels.sort_unstable();
    pixels.dedup();
    pixels
}

fn q([red, green, blue]: Pixel) -> i64 {
    let [r, g, b] = [red, green, blue].map(i64::from);
    r * r + g * g + b * b - r * g - g * b - b * r
}

/// Each square in another order of the channels.
fn squares() -> Vec<Pixel> {
    let pixels = flat_pixels(255);
    let mut found = Vec::new();
    for bin in 1..=41 {
        let square = 75 * bin * bin;
        let below = pixels.iter().filter(|&&pixel| 2 * q(pixel) < square);
        let from = pixels.iter().filter(|&&pixel| 2 * q(pixel) >= square);
        let order = ORDERS[bin as usize % ORDERS.len()];
        for pixel in [
            below.max_by_key(|&&pixel| q(pixel)),
            from.min_by_key(|&&pixel| q(pixel)),
        ] {
            let pixel = pixel.expect("there are some on both sides");
            found.push(order.map(|channel| pixel[channel]));
        }
    }
    found
}

/// The point whose angle is the hue, as M5 has it.
fn point([red, green, blue]: Pixel) -> (i64, i64) {
    let [r, g, b] = [red, green, blue].map(i64::from);
    (1_732_051 * (g - b), 1_000_000 * (g + b - 2 * r))
}

/// Whether the first angle is the smaller one, of two that are less than half a turn apart.
fn before(one: Pixel, other: Pixel) -> bool {
    let ((a, b), (c, d)) = (point(one), point(other));
    a * d - b * c > 0
}

fn hue_ends() -> Vec<Pixel> {
    let mut ends: Vec<Option<[Pixel; 2]>> = vec![None; 60];
    for pixel in flat_pixels(255) {
        let [red, green, blue] = pixel;
        let measured = measures(red, green, blue);
        if measured.grey {
            continue;
        }
        let end = &mut ends[usize::from(measured.hue)];
        let [first, last] = end.unwrap_or([pixel; 2]);
        *end = Some([
            if before(pixel, first) { pixel } else { first },
            if before(last, pixel) { pixel } else { last },
        ]);
    }
    ends.into_iter().flatten().flatten().collect()
}

/// Small, middling and large on each axis, and one step to either side.
fn axes() -> Vec<Pixel> {
    let mut pixels = Vec::new();
    for size in [12, 13, 50, 126] {
        let wide = 2 * size;
        for [red, green, blue] in [
            [size, wide, 0],
            [0, size, size],
            [size, 0, wide],
            [size, 0, 0],
        ] {
            pixels.push([red, green, blue]);
            pixels.push([red + 1, green, blue]);
            pixels.push([red, green + 1, blue]);
            pixels.push([red, green, blue + 1]);
        }
    }
    pixels
}
