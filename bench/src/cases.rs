//! The histograms that are timed: the same in every run.

use reference::calls::MOST_BINS;

/// A name and a histogram. Fits and verdicts are increasing.
pub struct Case {
    pub name: &'static str,
    pub histogram: Vec<u32>,
}

const SMALLER_BINS: usize = 32;
const HUE_BINS: usize = 60;
const INTENSITY_BINS: usize = 52;
const SATURATION_BINS: usize = 42;

pub fn fits() -> Vec<Case> {
    vec![
        Case {
            name: "256 bins, random",
            histogram: random(MOST_BINS),
        },
        Case {
            name: "256 bins, noisy hump",
            histogram: hump(MOST_BINS),
        },
        Case {
            name: "256 bins, alternating",
            histogram: alternating(MOST_BINS),
        },
    ]
}

pub fn verdicts() -> Vec<Case> {
    vec![
        Case {
            name: "60 bins, noisy hump",
            histogram: hump(HUE_BINS),
        },
        Case {
            name: "60 bins, random",
            histogram: random(HUE_BINS),
        },
        Case {
            name: "60 bins, noisy rise",
            histogram: rise(HUE_BINS),
        },
        Case {
            name: "256 bins, noisy hump",
            histogram: hump(MOST_BINS),
        },
        Case {
            name: "256 bins, random",
            histogram: random(MOST_BINS),
        },
        Case {
            name: "256 bins, noisy rise",
            histogram: rise(MOST_BINS),
        },
    ]
}

/// A line, and a smaller one of the same making that the reference can segment in time.
pub struct LineCase {
    pub line: Case,
    pub smaller: Vec<u32>,
}

pub fn lines() -> Vec<LineCase> {
    let whole = |name, make: fn(usize) -> Vec<u32>, bins| LineCase {
        line: Case {
            name,
            histogram: make(bins),
        },
        smaller: make(bins),
    };
    let long = |name, make: fn(usize) -> Vec<u32>| LineCase {
        line: Case {
            name,
            histogram: make(MOST_BINS),
        },
        smaller: make(SMALLER_BINS),
    };
    vec![
        whole("60 bins, noisy cloth", cloth, HUE_BINS),
        whole("52 bins, noisy cloth", cloth, INTENSITY_BINS),
        whole("42 bins, noisy cloth", cloth, SATURATION_BINS),
        long("256 bins, alternating 0, 256", high_alternating),
        long("256 bins, alternating 0, 1", alternating),
        long("256 bins, alternating heights", distinct_alternating),
        long("256 bins, found by the climb", climbed),
    ]
}

/// Four humps with noise, about 18,000 pixels: six to eight segments at first, four modes.
fn cloth(bins: usize) -> Vec<u32> {
    let mut noise = Noise(4);
    let humps = [(10, 6, 5000), (35, 12, 4000), (60, 8, 4000), (85, 10, 3000)];
    (0..bins)
        .map(|bin| {
            let smooth: usize = humps
                .map(|(middle, width, pixels)| {
                    let (middle, width) = (middle * bins / 100, width * bins / 100);
                    let near = width.saturating_sub(bin.abs_diff(middle));
                    pixels * near / (width * width)
                })
                .iter()
                .sum();
            smooth as u32 + noise.up_to(smooth as u32 / 4 + 6)
        })
        .collect()
}

fn high_alternating(bins: usize) -> Vec<u32> {
    (0..bins).map(|bin| 256 * (bin % 2) as u32).collect()
}

/// Highs and lows by turns, no two highs equal and no two lows, in no order.
fn distinct_alternating(bins: usize) -> Vec<u32> {
    let half = bins / 2;
    // 53 shares no factor with half of the bins, so that every remainder comes once.
    let height = |bin: usize| 53 * (bin / 2) % half;
    (0..bins)
        .map(|bin| (height(bin) + (bin % 2) * (half + half / 2)) as u32)
        .collect()
}

/// The worst line that the climb has found so far: for the most part highs of up to 17 between lows of 0 or 1.
const CLIMBED: [u32; MOST_BINS] = [
    3, 7, 1, 2, 0, 10, 0, 12, 1, 15, 0, 12, 0, 8, 6, 0, 12, 1, 13, 0, 2, 1, 9, 0, 11, 0, 11, 0, 6,
    8, 8, 0, 1, 14, 1, 2, 0, 7, 0, 15, 1, 9, 0, 11, 0, 11, 0, 12, 0, 9, 0, 1, 0, 8, 10, 0, 8, 1, 4,
    0, 7, 0, 15, 0, 4, 0, 2, 0, 11, 1, 8, 0, 12, 1, 9, 0, 6, 0, 0, 3, 0, 11, 0, 12, 1, 0, 1, 3, 11,
    5, 8, 0, 7, 0, 10, 0, 6, 0, 2, 0, 13, 0, 9, 1, 14, 0, 9, 0, 2, 2, 2, 15, 0, 2, 0, 15, 0, 4, 0,
    2, 0, 11, 0, 10, 0, 1, 0, 5, 0, 15, 0, 1, 0, 4, 0, 6, 0, 8, 7, 9, 0, 6, 0, 7, 0, 0, 0, 17, 2,
    15, 1, 0, 1, 12, 0, 13, 0, 11, 0, 10, 11, 0, 9, 0, 1, 2, 1, 11, 0, 11, 0, 7, 0, 6, 0, 12, 0,
    14, 0, 2, 0, 9, 1, 0, 0, 1, 13, 0, 9, 0, 16, 0, 8, 0, 9, 0, 10, 1, 8, 0, 7, 0, 15, 0, 8, 0, 9,
    0, 10, 0, 9, 10, 0, 9, 0, 7, 0, 12, 0, 16, 0, 2, 1, 8, 0, 14, 1, 8, 0, 12, 0, 9, 0, 0, 2, 1,
    11, 0, 6, 0, 6, 0, 11, 0, 13, 1, 2, 0, 2, 0, 16, 0, 0, 7, 0, 10,
];

fn climbed(bins: usize) -> Vec<u32> {
    CLIMBED[..bins].to_vec()
}

fn random(bins: usize) -> Vec<u32> {
    let mut noise = Noise(1);
    (0..bins).map(|_| noise.up_to(255)).collect()
}

fn alternating(bins: usize) -> Vec<u32> {
    (0..bins).map(|bin| (bin % 2) as u32).collect()
}

fn hump(bins: usize) -> Vec<u32> {
    let mut noise = Noise(2);
    let height = |bin: usize| (180 * bin.min(bins - bin) / (bins / 2)) as u32;
    (0..bins).map(|bin| height(bin) + noise.up_to(20)).collect()
}

fn rise(bins: usize) -> Vec<u32> {
    let mut noise = Noise(3);
    (0..bins)
        .map(|bin| (200 * bin / bins) as u32 + noise.up_to(10))
        .collect()
}

/// Knuth's linear congruence; its upper bits are used.
struct Noise(u64);

impl Noise {
    fn up_to(&mut self, top: u32) -> u32 {
        self.0 = self
            .0
            .wrapping_mul(6_364_136_223_846_793_005)
            .wrapping_add(1_442_695_040_888_963_407);
        ((self.0 >> 33) % u64::from(top + 1)) as u32
    }
}
