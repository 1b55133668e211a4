//! Measures of a pixel.

#[derive(Clone, Copy, Debug, PartialEq, Eq)]
pub struct Measures {
    pub intensity: u8,
    pub saturation: u8,
    pub hue: u8,
    pub grey: bool,
}

/// The largest Q of a grey.
const GREY: i64 = 136;

/// The highest saturation bin.
const SATURATION_TOP: i64 = 41;

const HUE_BINS: usize = 60;
const HUE_BINS_IN_A_QUARTER: usize = 15;

/// Tangents of 0° to 84° in steps of 6°, in millionths.
const TANGENTS: [i64; HUE_BINS_IN_A_QUARTER] = [
    0, 105104, 212556, 324919, 445228, 577350, 726542, 900404, 1110612, 1376381, 1732050, 2246036,
    3077683, 4704630, 9514364,
];
const TANGENT_UNIT: i64 = 1_000_000;

/// Where each hue bin begins, as a direction: the first quarter's directions, turned on by whole quarters.
const RAYS: [(i64, i64); HUE_BINS] = rays();

const fn rays() -> [(i64, i64); HUE_BINS] {
    let mut rays = [(0, 0); HUE_BINS];
    let mut bin = 0;
    while bin < HUE_BINS {
        let (x, y) = (TANGENT_UNIT, TANGENTS[bin % HUE_BINS_IN_A_QUARTER]);
        rays[bin] = match bin / HUE_BINS_IN_A_QUARTER {
            0 => (x, y),
            1 => (-y, x),
            2 => (-x, -y),
            _ => (y, -x),
        };
        bin += 1;
    }
    rays
}

pub fn measures(red: u8, green: u8, blue: u8) -> Measures {
    let (r, g, b) = (i64::from(red), i64::from(green), i64::from(blue));
    let q = spread(r, g, b);
    let grey = q <= GREY;
    Measures {
        intensity: ((r + g + b) / 15) as u8,
        saturation: saturation(q),
        hue: if grey { 0 } else { hue(r, g, b) },
        grey,
    }
}

/// The chroma squared, Q.
pub fn spread(r: i64, g: i64, b: i64) -> i64 {
    r * r + g * g + b * b - r * g - g * b - b * r
}

fn saturation(q: i64) -> u8 {
    (0..=SATURATION_TOP)
        .rev()
        .find(|j| 75 * j * j <= 2 * q)
        .expect("0 is always small enough") as u8
}

/// The one sector, between a bin's ray and the next, that holds the point: not to the right of the first, to the
/// right of the second. Sectors are far narrower than a half turn, so exactly one does.
fn hue(r: i64, g: i64, b: i64) -> u8 {
    let point = (1_732_051 * (g - b), 1_000_000 * (g + b - 2 * r));
    (0..HUE_BINS)
        .find(|&bin| turn(RAYS[bin], point) >= 0 && turn(RAYS[(bin + 1) % HUE_BINS], point) < 0)
        .expect("the sectors cover the plane") as u8
}

/// Positive when the second direction lies to the left of the first, 0 on its line.
fn turn(from: (i64, i64), to: (i64, i64)) -> i64 {
    from.0 * to.1 - from.1 * to.0
}

#[cfg(test)]
mod tests {
    use super::*;

    #[test]
    fn greys_end_at_136() {
        assert_eq!(spread(13, 9, 0), 133);
        assert!(measures(13, 9, 0).grey);
        assert_eq!(spread(13, 10, 0), 139);
        assert!(!measures(13, 10, 0).grey);
    }

    #[test]
    fn hues_that_are_given() {
        assert_eq!(measures(0, 255, 0).hue, 5);
        assert_eq!(measures(0, 0, 255).hue, 25);
        assert_eq!(measures(255, 0, 0).hue, 45);
        assert_eq!(measures(100, 0, 200).hue, 30);
        assert_eq!(measures(100, 200, 0).hue, 0);
    }

    #[test]
    fn ends_of_the_ranges() {
        let black = Measures {
            intensity: 0,
            saturation: 0,
            hue: 0,
            grey: true,
        };
        let white = Measures {
            intensity: 51,
            ..black
        };
        assert_eq!(measures(0, 0, 0), black);
        assert_eq!(measures(255, 255, 255), white);
        assert_eq!(measures(255, 0, 0).saturation, 41);
    }

    /// The way of the rules to the hue: the quarter, the point turned back, the tangents counted.
    #[test]
    fn sectors_agree_with_quarters() {
        let step = |top| (0..=top).step_by(3).chain([1, 254]);
        for r in step(255) {
            for g in step(255) {
                for b in step(255) {
                    if spread(r, g, b) > GREY {
                        assert_eq!(hue(r, g, b), hue_by_quarters(r, g, b), "{r} {g} {b}");
                    }
                }
            }
        }
    }

    fn hue_by_quarters(r: i64, g: i64, b: i64) -> u8 {
        let (u, v) = (1_732_051 * (g - b), 1_000_000 * (g + b - 2 * r));
        let (quarter, across, up) = if u > 0 && v >= 0 {
            (0, u, v)
        } else if u <= 0 && v > 0 {
            (1, v, -u)
        } else if u < 0 && v <= 0 {
            (2, -u, -v)
        } else {
            (3, -v, u)
        };
        let passed = TANGENTS[1..]
            .iter()
            .filter(|&&t| up * 1_000_000 >= t * across)
            .count();
        15 * quarter + passed as u8
    }
}
