//! The card. Every pixel gets a key: its kind and the numbers of its hue, saturation and intensity modes, found level by
//! level. The keys that occur, sorted, are the entries.

use crate::measures::{measures, Measures};
use crate::rings::RingTraits;
use crate::{lines, rings};
use std::collections::{BTreeMap, BTreeSet};

/// Red, green, blue.
pub type Pixel = [u8; 3];

#[derive(Clone, Copy, Debug, Default, PartialEq, Eq)]
pub struct Entry {
    pub kind: u8,
    pub hue: u8,
    pub saturation: u8,
    pub intensity: u8,
    pub red: u8,
    pub green: u8,
    pub blue: u8,
    pub count: u32,
}

/// The card as defined, without a limit: its entries, and for each pixel the number of its entry; and the traits of the
/// ring of hues.
#[derive(Clone, Debug, PartialEq, Eq)]
pub struct Card {
    pub entries: Vec<Entry>,
    pub labels: Vec<usize>,
    pub hue_traits: RingTraits,
}

pub const GREY: usize = 0;
pub const COLOUR: usize = 1;

/// Kind, hue mode, saturation mode, intensity mode. In the order of the entries: greys come first, and among them only
/// the intensity differs.
type Key = [usize; 4];

/// A measure by which pixels are divided.
struct Level {
    /// Its place in a key.
    place: usize,
    bins: usize,
    bin: fn(&Measures) -> u8,
    /// Where the modes of a histogram start, by number, and its traits, if it is a ring.
    starts: fn(&[u64], i32) -> (Vec<usize>, RingTraits),
}

const HUE: Level = Level {
    place: 1,
    bins: 60,
    bin: |measures| measures.hue,
    starts: ring_starts,
};
const SATURATION: Level = Level {
    place: 2,
    bins: 42,
    bin: |measures| measures.saturation,
    starts: line_starts,
};
const INTENSITY: Level = Level {
    place: 3,
    bins: 52,
    bin: |measures| measures.intensity,
    starts: line_starts,
};

fn ring_starts(counts: &[u64], closeness: i32) -> (Vec<usize>, RingTraits) {
    let ring = rings::finished(counts, closeness);
    (ring.starts(), ring.traits)
}

/// Nothing is joined round a line.
fn line_starts(counts: &[u64], closeness: i32) -> (Vec<usize>, RingTraits) {
    let modes = lines::modes(counts, closeness);
    let starts = modes.iter().map(|mode| mode.start).collect();
    (starts, RingTraits::default())
}

pub fn card(pixels: &[Pixel], closeness: i32) -> Card {
    let (keys, hue_traits) = keys(pixels, closeness);
    let all: Vec<Key> = BTreeSet::from_iter(&keys).into_iter().copied().collect();
    let number = |key: &Key| all.binary_search(key).expect("it is one of them");
    let labels: Vec<usize> = keys.iter().map(number).collect();
    let mut held: Vec<Vec<Pixel>> = vec![Vec::new(); all.len()];
    for (&label, &pixel) in labels.iter().zip(pixels) {
        held[label].push(pixel);
    }
    let entries = all.iter().zip(&held).map(|(key, held)| entry(key, held));
    Card {
        entries: entries.collect(),
        labels,
        hue_traits,
    }
}

/// The key of each pixel: greys divided by intensity; colours by hue, each of those sets by saturation, each of those
/// by intensity. And the traits of the hues, which are divided once, if there are any.
fn keys(pixels: &[Pixel], closeness: i32) -> (Vec<Key>, RingTraits) {
    let measured: Vec<Measures> = pixels.iter().map(|&[r, g, b]| measures(r, g, b)).collect();
    let kind = |measures: &Measures| if measures.grey { GREY } else { COLOUR };
    let mut keys: Vec<Key> = measured.iter().map(|m| [kind(m), 0, 0, 0]).collect();
    let mut hue_traits = RingTraits::default();
    for (level, of_greys) in [(HUE, false), (SATURATION, false), (INTENSITY, true)] {
        for (key, members) in sets(&keys) {
            if key[0] == COLOUR || of_greys {
                let traits = divide(&level, closeness, &measured, &members, &mut keys);
                if level.place == HUE.place {
                    hue_traits = traits;
                }
            }
        }
    }
    (keys, hue_traits)
}

/// The pixels of each key, by their places.
fn sets(keys: &[Key]) -> BTreeMap<Key, Vec<usize>> {
    let mut sets: BTreeMap<Key, Vec<usize>> = BTreeMap::new();
    for (place, &key) in keys.iter().enumerate() {
        sets.entry(key).or_default().push(place);
    }
    sets
}

/// Puts the number of its mode into the key of each member, from the histogram of the members alone. The traits of that
/// histogram are handed back.
fn divide(
    level: &Level,
    closeness: i32,
    measured: &[Measures],
    members: &[usize],
    keys: &mut [Key],
) -> RingTraits {
    let bin = |place: usize| usize::from((level.bin)(&measured[place]));
    let mut counts = vec![0; level.bins];
    for &place in members {
        counts[bin(place)] += 1;
    }
    let (starts, traits) = (level.starts)(&counts, closeness);
    let mut met = vec![false; starts.len()];
    for &place in members {
        let mode = mode_of(bin(place), &starts, level.bins);
        met[mode] = true;
        keys[place][level.place] = mode;
    }
    // So that the keys that occur are all the entries there are. Beside each valley a first segment has a higher bin of
    // its own, and a mode has the bins of all the segments that were joined to it, on a ring past the opening too.
    assert!(met.iter().all(|&met| met), "a mode without a pixel");
    traits
}

/// The mode that a bin lies in: back from the bin, on a ring past bin 0 too, to the first start that is met. A ring's
/// modes number from its opening, so the bins from the opening up to the start of mode 0, if any, are the last mode's.
pub fn mode_of(bin: usize, starts: &[usize], bins: usize) -> usize {
    (0..bins)
        .map(|back| (bin + bins - back) % bins)
        .find_map(|bin| starts.iter().position(|&start| start == bin))
        .expect("there is a mode")
}

fn entry(key: &Key, pixels: &[Pixel]) -> Entry {
    let [kind, hue, saturation, intensity] = key.map(|number| number as u8);
    let [red, green, blue] = [0, 1, 2].map(|channel| {
        let values: Vec<u8> = pixels.iter().map(|pixel| pixel[channel]).collect();
        mean(&values)
    });
    Entry {
        kind,
        hue,
        saturation,
        intensity,
        red,
        green,
        blue,
        count: pixels.len() as u32,
    }
}

/// Halves up.
fn mean(values: &[u8]) -> u8 {
    let count = values.len() as u64;
    let sum: u64 = values.iter().map(|&value| u64::from(value)).sum();
    let (whole, rest) = (sum / count, sum % count);
    (whole + u64::from(2 * rest >= count)) as u8
}

#[cfg(test)]
mod tests {
    use super::*;

    #[test]
    fn means_round_halves_up() {
        assert_eq!(mean(&[0, 1]), 1);
        assert_eq!(mean(&[0, 0, 1]), 0);
        assert_eq!(mean(&[0, 1, 1]), 1);
        assert_eq!(mean(&[0, 0, 0, 2]), 1);
        assert_eq!(mean(&[0, 0, 0, 0, 2]), 0);
        assert_eq!(mean(&[254, 255]), 255);
        assert_eq!(mean(&[7]), 7);
        assert_eq!(mean(&vec![255; 65_536]), 255);
    }

    #[test]
    fn a_bin_lies_in_the_mode_that_starts_last_before_it() {
        let line = [0, 3, 7];
        let modes: Vec<usize> = (0..10).map(|bin| mode_of(bin, &line, 10)).collect();
        assert_eq!(modes, [0, 0, 0, 1, 1, 1, 1, 2, 2, 2]);
        // A ring opened at bin 7, where mode 0 starts and runs over the seam.
        let ring = [7, 2, 4];
        let modes: Vec<usize> = (0..10).map(|bin| mode_of(bin, &ring, 10)).collect();
        assert_eq!(modes, [0, 0, 1, 1, 2, 2, 2, 0, 0, 0]);
    }

    /// Bins 6 and 7 come after the opening and before mode 0.
    #[test]
    fn the_last_mode_of_a_ring_goes_on_past_the_opening() {
        let counts = [2, 20, 2, 2, 2, 13, 1, 20, 2, 2];
        assert_eq!(rings::opening(&counts), 6);
        let starts = rings::finished(&counts, 3).starts();
        assert_eq!(starts, [8, 2]);
        let modes: Vec<usize> = (0..10).map(|bin| mode_of(bin, &starts, 10)).collect();
        assert_eq!(modes, [0, 0, 1, 1, 1, 1, 1, 1, 0, 0]);
    }

    /// The first ring opens at bin 1, which is no separator; the next two at bin 3, the last at bin 2.
    #[test]
    fn the_list_of_a_ring_does_not_renumber_its_modes() {
        let rings: [(i32, &[u64], &[usize], &[usize]); 4] = [
            (
                1,
                &[94, 78, 144, 78, 143, 78, 78, 118, 78],
                &[3, 5],
                &[1, 1, 1, 0, 0, 1, 1, 1, 1],
            ),
            (0, &[9, 1, 9, 0, 9, 0], &[1, 3, 5], &[1, 2, 2, 0, 0, 1]),
            (
                0,
                &[2, 50, 9, 0, 50, 3, 60],
                &[0, 3, 5],
                &[2, 2, 2, 0, 0, 1, 1],
            ),
            (
                0,
                &[1, 20, 0, 20, 0, 20, 0, 21],
                &[0, 2, 4, 6],
                &[3, 3, 0, 0, 1, 1, 2, 2],
            ),
        ];
        for (closeness, counts, list, modes) in rings {
            let ring = rings::finished(counts, closeness);
            assert_eq!(ring.separators(), list, "{counts:?}");
            let starts = ring.starts();
            let bins = 0..counts.len();
            let found: Vec<usize> = bins
                .map(|bin| mode_of(bin, &starts, counts.len()))
                .collect();
            assert_eq!(found, modes, "{counts:?}");
        }
    }
}
