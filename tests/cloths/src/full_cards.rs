//! Swatches whose cards have as many entries as wanted, on both sides of the limit of 1,000 and of the 255 that were
//! the most with labels of one byte: colours of far-apart hue, saturation and intensity bins, and greys of far-apart
//! intensity bins. With enough pixels of each, nothing joins.

use reference::cards::Pixel;
use reference::measures::measures;
use std::collections::{BTreeMap, BTreeSet};
use std::sync::OnceLock;

/// Hue, saturation and intensity bin.
type Bins = (u8, u8, u8);

/// The bins of the first colours. There is a pixel for every combination of them.
const HUES: [u8; 10] = [2, 8, 14, 20, 26, 32, 38, 44, 50, 56];
const SATURATIONS: [u8; 5] = [4, 7, 10, 13, 16];
const INTENSITIES: [u8; 5] = [16, 20, 24, 28, 32];

const GREY_INTENSITIES: [u8; 12] = [2, 6, 10, 14, 18, 22, 26, 30, 34, 38, 42, 46];

/// The bins of the colours that follow. Not every combination of them exists: a dark or light pixel has little saturation.
const MORE_HUES: [u8; 20] = [
    2, 5, 8, 11, 14, 17, 20, 23, 26, 29, 32, 35, 38, 41, 44, 47, 50, 53, 56, 59,
];
const MORE_SATURATIONS: [u8; 9] = [4, 7, 10, 13, 16, 19, 22, 25, 28];
const MORE_INTENSITIES: [u8; 12] = [4, 8, 12, 16, 20, 24, 28, 32, 36, 40, 44, 48];

/// The most entries that can be had.
pub const MOST: usize = 1_391;

/// A pixel for each entry: the first colours, the greys, and more colours.
pub fn colours(entries: usize) -> Vec<Pixel> {
    static ALL: OnceLock<Vec<Pixel>> = OnceLock::new();
    let all = ALL.get_or_init(all);
    assert!(entries <= all.len(), "{entries} entries are too many");
    all[..entries].to_vec()
}

/// So many pixels for each entry, by turns.
pub fn pixels(entries: usize, each: usize) -> Vec<Pixel> {
    colours(entries).repeat(each)
}

fn all() -> Vec<Pixel> {
    let found = found();
    let first = combinations(&HUES, &SATURATIONS, &INTENSITIES);
    let taken: BTreeSet<Bins> = first.iter().copied().collect();
    let mut more = combinations(&MORE_HUES, &MORE_SATURATIONS, &MORE_INTENSITIES);
    more.retain(|bins| found.contains_key(bins) && !taken.contains(bins));
    let greys = GREY_INTENSITIES.map(|bin| [5 * bin + 2; 3]);
    let pixel = |bins: &Bins| found[bins];
    let first = first.iter().map(pixel);
    first.chain(greys).chain(more.iter().map(pixel)).collect()
}

fn combinations(hues: &[u8], saturations: &[u8], intensities: &[u8]) -> Vec<Bins> {
    let mut all = Vec::new();
    for &hue in hues {
        for &saturation in saturations {
            all.extend(intensities.iter().map(|&bin| (hue, saturation, bin)));
        }
    }
    all
}

/// A coloured pixel for each combination of bins that has one, the first of those tried.
fn found() -> BTreeMap<Bins, Pixel> {
    let mut found = BTreeMap::new();
    let levels = || (0..=255).step_by(3);
    for red in levels() {
        for green in levels() {
            for blue in levels() {
                let m = measures(red, green, blue);
                if !m.grey {
                    let bins = (m.hue, m.saturation, m.intensity);
                    found.entry(bins).or_insert([red, green, blue]);
                }
            }
        }
    }
    found
}

#[cfg(test)]
mod tests {
    use super::*;
    use reference::calls::{self, LEAST_CLOSENESS, MOST_CLOSENESS, MOST_ENTRIES, MOST_PIXELS};
    use reference::cards::{card, Entry};
    use reference::swatches::MOST_SWATCH_PIXELS;

    /// So many that a limit of 1,024, or a count kept in 10 bits, is passed by more than 255.
    #[test]
    fn there_are_as_many_as_said() {
        assert_eq!(all().len(), MOST);
        assert!(10 * MOST <= MOST_SWATCH_PIXELS as usize);
    }

    #[test]
    fn ten_pixels_for_each_entry_are_enough() {
        for entries in [
            1, 100, 254, 255, 256, 257, 262, 263, 512, 513, 999, 1_000, 1_001, MOST,
        ] {
            assert_eq!(card(&pixels(entries, 10), 0).entries.len(), entries);
        }
    }

    #[test]
    fn one_pixel_for_each_entry_is_enough_at_the_least_closeness() {
        for entries in [255, 256, 1_000, 1_001, MOST] {
            let card = card(&pixels(entries, 1), LEAST_CLOSENESS);
            assert_eq!(card.entries.len(), entries);
        }
    }

    #[test]
    fn more_pixels_are_enough_at_the_greatest_closeness() {
        for (entries, each) in [(255, 250), (256, 250), (1_000, 65), (1_001, 65)] {
            assert!((entries * each) as u128 <= MOST_PIXELS);
            let card = card(&pixels(entries, each), MOST_CLOSENESS);
            assert_eq!(card.entries.len(), entries);
        }
    }

    #[test]
    fn one_entry_too_many_is_ground_11() {
        for (entries, number, len) in [(1_000, 0, 1_000), (1_001, 11, 0)] {
            let pixels = pixels(entries, 10);
            let mut labels = vec![7_777; pixels.len()];
            let answer = calls::card(&pixels.concat(), 0, &mut labels);
            assert_eq!((answer.number, answer.len), (number, len));
            let lent = labels.iter().all(|&label| label == 7_777);
            let zero = answer.entries == [Entry::default(); MOST_ENTRIES];
            assert_eq!((lent, zero), (number == 11, number == 11));
        }
    }
}
