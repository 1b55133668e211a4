//! The card, written for speed in another form than the engine's: each pixel is measured once and its three bins are kept;
//! then every pixel holds the number of its node, and one pass for each level moves all pixels on and counts the histograms
//! of all nodes at once. The engine sorts instead, node by node, which takes less memory and needs no table of nodes.

use crate::fast::{line_modes, ring_modes};
use reference::calls::{CardAnswer, MOST_ENTRIES};
use reference::cards::Entry;

const HUES: usize = 60;
const SATURATIONS: usize = 42;
const INTENSITIES: usize = 52;
/// The hue that is kept for a grey, so that it needs no test of its own.
const GREY: usize = HUES;
/// The node of the greys, which wait there until the intensities are counted.
const GREYS: u16 = 0;
const GREATEST_GREY: i32 = 136;

const TANGENTS: [i64; 15] = [
    105104,
    212556,
    324919,
    445228,
    577350,
    726542,
    900404,
    1110612,
    1376381,
    1732050,
    2246036,
    3077683,
    4704630,
    9514364,
    // One that is never passed.
    10_000_000_000,
];

/// For each 32 values of Q the saturation bin of the lowest: within them it rises by one at most.
const SATURATION_AT: [u8; 65_025 / 32 + 1] = saturation_at();

const fn saturation_at() -> [u8; 65_025 / 32 + 1] {
    let mut table = [0; 65_025 / 32 + 1];
    let mut index = 0;
    let mut bin = 0;
    while index < table.len() {
        while 75 * (bin + 1) * (bin + 1) <= 64 * index {
            bin += 1;
        }
        table[index] = bin as u8;
        index += 1;
    }
    table
}

#[derive(Clone, Copy, Default)]
struct Bins {
    hue: u8,
    saturation: u8,
    intensity: u8,
}

#[derive(Clone, Copy, Default)]
struct Total {
    red: u32,
    green: u32,
    blue: u32,
    count: u32,
}

/// What is kept from call to call, so that none has to ask for memory again.
#[derive(Default)]
pub struct Scratch {
    bins: Vec<Bins>,
    nodes: Vec<u16>,
    saturations: Vec<[u32; SATURATIONS]>,
    intensities: Vec<[u32; INTENSITIES]>,
    /// The next node, by node and bin.
    by_saturation: Vec<[u16; SATURATIONS]>,
    by_intensity: Vec<[u16; INTENSITIES]>,
}

/// The answer to a call that can be turned down only for its number of entries. Never put into its caller, so that its
/// instructions can be counted.
#[inline(never)]
pub fn card(bytes: &[u8], closeness: i32, labels: &mut [u16], scratch: &mut Scratch) -> CardAnswer {
    let pixels = bytes.len() / 3;
    let Scratch {
        bins,
        nodes,
        saturations,
        intensities,
        by_saturation,
        by_intensity,
    } = scratch;

    let mut hues = [0; HUES + 1];
    bins.clear();
    bins.extend(bytes.chunks_exact(3).map(|rgb| {
        let measured = measure(rgb[0], rgb[1], rgb[2]);
        hues[usize::from(measured.hue)] += 1;
        measured
    }));
    let greys = hues[GREY];

    // Colours begin at node 1, by hue mode.
    let mut by_hue = [GREYS; HUES + 1];
    let mut hue_modes = 0;
    if greys < pixels as u32 {
        hue_modes = ring_table(&hues[..HUES], closeness, &mut by_hue);
    }
    saturations.clear();
    saturations.resize(hue_modes + 1, [0; SATURATIONS]);
    nodes.clear();
    nodes.extend(bins.iter().map(|bins| {
        let node = by_hue[usize::from(bins.hue)];
        saturations[usize::from(node)][usize::from(bins.saturation)] += 1;
        node
    }));

    // A key is a kind and the numbers of the modes so far.
    let mut keys = vec![[0, 0, 0]];
    by_saturation.clear();
    by_saturation.push([GREYS; SATURATIONS]);
    for (hue, counts) in saturations[1..].iter().enumerate() {
        let mut table = [0; SATURATIONS];
        let modes = line_table(counts, closeness, keys.len(), &mut table);
        keys.extend((0..modes).map(|mode| [1, hue as u8, mode as u8]));
        by_saturation.push(table);
    }
    intensities.clear();
    intensities.resize(keys.len(), [0; INTENSITIES]);
    for (node, bins) in nodes.iter_mut().zip(bins.iter()) {
        *node = by_saturation[usize::from(*node)][usize::from(bins.saturation)];
        intensities[usize::from(*node)][usize::from(bins.intensity)] += 1;
    }

    let mut answer = CardAnswer {
        number: 0,
        len: 0,
        entries: [Entry::default(); MOST_ENTRIES],
    };
    let mut len = 0;
    by_intensity.clear();
    for (node, counts) in intensities.iter().enumerate() {
        let mut table = [0; INTENSITIES];
        if node > 0 || greys > 0 {
            let modes = line_table(counts, closeness, len, &mut table);
            if len + modes > MOST_ENTRIES {
                return CardAnswer {
                    number: 11,
                    len: 0,
                    entries: [Entry::default(); MOST_ENTRIES],
                };
            }
            let [kind, hue, saturation] = keys[node];
            for intensity in 0..modes {
                answer.entries[len + intensity] = Entry {
                    kind,
                    hue,
                    saturation,
                    intensity: intensity as u8,
                    ..Entry::default()
                };
            }
            len += modes;
        }
        by_intensity.push(table);
    }
    answer.len = len as u32;

    let mut totals = [Total::default(); MOST_ENTRIES];
    let kept = nodes.iter().zip(bins.iter());
    for ((label, rgb), (node, bins)) in labels.iter_mut().zip(bytes.chunks_exact(3)).zip(kept) {
        let entry = by_intensity[usize::from(*node)][usize::from(bins.intensity)];
        *label = entry;
        let total = &mut totals[usize::from(entry)];
        total.red += u32::from(rgb[0]);
        total.green += u32::from(rgb[1]);
        total.blue += u32::from(rgb[2]);
        total.count += 1;
    }
    for (entry, total) in answer.entries[..len].iter_mut().zip(&totals) {
        let mean = |sum: u32| ((2 * sum + total.count) / (2 * total.count)) as u8;
        entry.red = mean(total.red);
        entry.green = mean(total.green);
        entry.blue = mean(total.blue);
        entry.count = total.count;
    }
    answer
}

#[inline(always)]
fn measure(red: u8, green: u8, blue: u8) -> Bins {
    let (r, g, b) = (i32::from(red), i32::from(green), i32::from(blue));
    let q = r * r + g * g + b * b - r * g - g * b - b * r;
    let at = SATURATION_AT[(q >> 5) as usize];
    let next = i32::from(at) + 1;
    Bins {
        hue: if q <= GREATEST_GREY {
            GREY as u8
        } else {
            hue(r, g, b)
        },
        saturation: at + u8::from(75 * next * next <= 2 * q),
        intensity: ((r + g + b) / 15) as u8,
    }
}

#[inline(always)]
fn hue(r: i32, g: i32, b: i32) -> u8 {
    let u = 1_732_051 * i64::from(g - b);
    let v = 1_000_000 * i64::from(g + b - 2 * r);
    let (quarter, across, up) = if u > 0 && v >= 0 {
        (0, u, v)
    } else if u <= 0 && v > 0 {
        (1, v, -u)
    } else if u < 0 && v <= 0 {
        (2, -u, -v)
    } else {
        (3, -v, u)
    };
    // The tangents rise: how many are passed is found by halving.
    let mut passed = 0;
    for step in [8, 4, 2, 1] {
        if up * 1_000_000 >= TANGENTS[passed + step - 1] * across {
            passed += step;
        }
    }
    15 * quarter + passed as u8
}

/// Numbers the modes of a line from `first` on, gives each bin the number of its mode, and says how many there are.
fn line_table(counts: &[u32], closeness: i32, first: usize, table: &mut [u16]) -> usize {
    let mut list = [0; HUES + 1];
    let modes = line_modes(counts, closeness, &mut list) - 1;
    number(&list[..modes], first, table);
    modes
}

/// The same for the ring of hues, from 1 on.
fn ring_table(counts: &[u32], closeness: i32, table: &mut [u16]) -> usize {
    let opening = (0..HUES).min_by_key(|&bin| counts[bin]).unwrap_or(0);
    let mut turns = [0; 2 * HUES];
    for (place, count) in turns.iter_mut().enumerate() {
        *count = counts[(opening + place) % HUES];
    }
    let mut list = [0; HUES];
    let modes = ring_modes(&turns, closeness, &mut list);
    // The last mode goes on past the opening, to the separator of mode 0.
    let mut opened = [modes as u16; HUES];
    number(&list[..modes], 1, &mut opened);
    for place in 0..HUES {
        table[(opening + place) % HUES] = opened[place];
    }
    modes
}

/// Each bin from the start of a mode on gets its number, until the next mode starts.
fn number(starts: &[u32], first: usize, table: &mut [u16]) {
    for (mode, &start) in starts.iter().enumerate() {
        table[start as usize..].fill((first + mode) as u16);
    }
}

#[cfg(test)]
mod tests {
    use super::*;
    use cloths::full_cards;
    use reference::calls;

    /// On both sides of what labels of one byte can tell apart, and of the limit.
    #[test]
    fn cards_of_many_entries_are_those_of_the_reference() {
        for entries in [255, 256, 257, MOST_ENTRIES, MOST_ENTRIES + 1] {
            let bytes = full_cards::pixels(entries, 10).concat();
            let mut expected_labels = vec![u16::MAX; bytes.len() / 3];
            let mut labels = expected_labels.clone();
            let expected = calls::card(&bytes, 0, &mut expected_labels);
            let made = card(&bytes, 0, &mut labels, &mut Scratch::default());
            assert_eq!(made, expected);
            assert_eq!(labels, expected_labels);
            let fits = entries <= MOST_ENTRIES;
            assert_eq!(made.number, if fits { 0 } else { 11 });
            assert_eq!(made.len as usize, if fits { entries } else { 0 });
        }
    }

    /// One hump goes past the opening, which is then no separator; the other one starts first. Turned on by a bin, so that
    /// the opening is not bin 0 either.
    #[test]
    fn hues_before_the_first_separator_are_of_the_last_mode() {
        for turned in [0, 1] {
            let mut counts = [0; HUES];
            for hue in [1, 30, 59] {
                counts[(hue + turned) % HUES] = 4;
            }
            let mut table = [GREYS; HUES];
            assert_eq!(ring_table(&counts, 0, &mut table), 2);
            for hue in 0..HUES {
                let mode = if (2..31).contains(&hue) { 1 } else { 2 };
                assert_eq!(table[(hue + turned) % HUES], mode, "{hue}, {turned}");
            }
        }
    }
}
