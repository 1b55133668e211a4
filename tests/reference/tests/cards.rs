//! Cards of small swatches, and what holds for every card.

#[path = "common/mixed.rs"]
mod mixed;

use mixed::mixed;
use reference::calls::LEAST_CLOSENESS;
use reference::cards::{card, Entry, Pixel};
use reference::measures::measures;

const BLACK: Pixel = [0, 0, 0];
const WHITE: Pixel = [255, 255, 255];
const RED: Pixel = [255, 0, 0];
const BLUE: Pixel = [0, 0, 255];

fn entry_of(modes: [u8; 4], [red, green, blue]: Pixel, count: u32) -> Entry {
    let [kind, hue, saturation, intensity] = modes;
    Entry {
        kind,
        hue,
        saturation,
        intensity,
        red,
        green,
        blue,
        count,
    }
}

fn repeated(counts: &[(Pixel, usize)]) -> Vec<Pixel> {
    let runs = counts.iter().map(|&(pixel, count)| vec![pixel; count]);
    runs.flatten().collect()
}

#[test]
fn black_beside_red() {
    let card = card(&[BLACK, RED], 0);
    assert_eq!(
        card.entries,
        [
            entry_of([0, 0, 0, 0], BLACK, 1),
            entry_of([1, 0, 0, 0], RED, 1)
        ]
    );
    assert_eq!(card.labels, [0, 1]);
}

#[test]
fn greys_come_first_wherever_they_stand() {
    let card = card(&[RED, BLACK, RED], 20);
    assert_eq!(card.labels, [1, 0, 1]);
    assert_eq!(card.entries[1], entry_of([1, 0, 0, 0], RED, 2));
}

#[test]
fn one_kind_alone() {
    for (pixel, kind) in [(BLACK, 0), (WHITE, 0), (RED, 1), (BLUE, 1)] {
        for count in [1, 2, 500] {
            let card = card(&vec![pixel; count], 0);
            let one = entry_of([kind, 0, 0, 0], pixel, count as u32);
            assert_eq!(card.entries, [one]);
            assert_eq!(card.labels, vec![0; count]);
        }
    }
}

#[test]
fn greys_divide_by_intensity() {
    let pixels = repeated(&[(WHITE, 20), (BLACK, 30), ([128, 128, 128], 25)]);
    let card = card(&pixels, 0);
    assert_eq!(
        card.entries,
        [
            entry_of([0, 0, 0, 0], BLACK, 30),
            entry_of([0, 0, 0, 1], [128, 128, 128], 25),
            entry_of([0, 0, 0, 2], WHITE, 20),
        ]
    );
    let labels = repeated(&[([2; 3], 20), ([0; 3], 30), ([1; 3], 25)]);
    let labels: Vec<usize> = labels.iter().map(|label| usize::from(label[0])).collect();
    assert_eq!(card.labels, labels);
}

/// Few pixels are no evidence for two modes; the mean is taken over both.
#[test]
fn two_greys_alone_are_one_entry() {
    let card = card(&[BLACK, WHITE], 0);
    assert_eq!(card.entries, [entry_of([0, 0, 0, 0], [128, 128, 128], 2)]);
    assert_eq!(card.labels, [0, 0]);
}

/// At the least closeness the same two pixels are enough.
#[test]
fn two_greys_alone_are_two_entries_at_the_least_closeness() {
    let card = card(&[WHITE, BLACK], LEAST_CLOSENESS);
    assert_eq!(
        card.entries,
        [
            entry_of([0, 0, 0, 0], BLACK, 1),
            entry_of([0, 0, 0, 1], WHITE, 1)
        ]
    );
    assert_eq!(card.labels, [1, 0]);
}

#[test]
fn a_cloth_has_more_entries_at_the_least_closeness() {
    let pixels = mixed(3000);
    let entries = |closeness| card(&pixels, closeness).entries.len();
    assert!(entries(LEAST_CLOSENESS) > entries(0));
}

/// Greens at hue bin 5, blues at 25, reds at 45: the ring opens at bin 0, the first of the empty ones.
#[test]
fn hues_number_from_the_opening() {
    let green = [0, 255, 0];
    let pixels = repeated(&[(RED, 40), (BLUE, 40), (green, 40)]);
    let card = card(&pixels, 0);
    let found: Vec<(u8, Pixel)> = card
        .entries
        .iter()
        .map(|entry| (entry.hue, [entry.red, entry.green, entry.blue]))
        .collect();
    assert_eq!(found, [(0, green), (1, BLUE), (2, RED)]);
    assert_eq!(card.hue_traits.joins, 0);
    assert_eq!(card.labels[0], 2);
    assert_eq!(card.labels[119], 0);
}

/// Hue bins 0 to 2, of which bin 1 is a valley; the ring opens at bin 3. Its modes start there and at bin 1, so in the
/// list of its separators they are the other way round.
#[test]
fn hues_do_not_number_as_separators_are_listed() {
    let greens = [([100, 200, 0], 60), ([75, 200, 0], 2), ([60, 200, 0], 60)];
    assert_eq!(
        greens.map(|([r, g, b], _)| measures(r, g, b).hue),
        [0, 1, 2]
    );
    let card = card(&repeated(&greens), 0);
    let hues = card.labels.iter().map(|&label| card.entries[label].hue);
    assert!(hues.eq([vec![0; 60], vec![1; 62]].concat()));
    assert!(card.hue_traits.rotated);
}

/// Hue bins 59 and 0 are one hump over the ring's seam, between empty bins; bins 29 and 30 another.
#[test]
fn a_hue_mode_runs_over_the_seam() {
    let seam = [([100, 200, 0], 40), ([104, 200, 0], 40)];
    let across = [([100, 0, 200], 40), ([96, 0, 200], 40)];
    assert_eq!(measures(100, 200, 0).hue, 0);
    assert_eq!(measures(104, 200, 0).hue, 59);
    let card = card(&repeated(&[seam, across].concat()), 0);
    let hues: Vec<u8> = card.entries.iter().map(|entry| entry.hue).collect();
    assert!(hues.iter().max() == Some(&1), "{hues:?}");
    assert_eq!(card.labels[0], card.labels[79]);
    assert_ne!(card.labels[0], card.labels[80]);
    assert_eq!(card.labels[80], card.labels[159]);
}

/// The ring opens at hue bin 0, an empty bin amid one hump. The bins after it are in the last mode with those before it,
/// and mode 0 is the blues, though they come later.
#[test]
fn a_hue_mode_goes_on_past_the_opening() {
    let greens = [120, 110, 75, 60].map(|red| [red, 200, 0]);
    assert_eq!(
        greens.map(|[r, g, b]| measures(r, g, b).hue),
        [58, 59, 1, 2]
    );
    let blues = [([100, 0, 200], 40), ([96, 0, 200], 40)];
    let pixels = repeated(&[greens.map(|green| (green, 8)).as_slice(), &blues].concat());
    let card = card(&pixels, 0);
    let hues = card.labels.iter().map(|&label| card.entries[label].hue);
    assert!(hues.eq([vec![1; 32], vec![0; 80]].concat()));
    assert_eq!(card.hue_traits.joins, 1);
}

/// One hue, two saturations, the second with two intensities: three entries in this order.
#[test]
fn a_hue_divides_by_saturation_and_then_by_intensity() {
    let (dull, dark, light) = ([120, 100, 100], [150, 30, 30], [225, 105, 105]);
    let bins = |[r, g, b]: Pixel| {
        let found = measures(r, g, b);
        (found.hue, found.saturation, found.intensity)
    };
    assert_eq!(bins(dark).0, bins(dull).0);
    assert_eq!(bins(dark).1, bins(light).1);
    let card = card(&repeated(&[(light, 50), (dark, 50), (dull, 50)]), 0);
    assert_eq!(
        card.entries,
        [
            entry_of([1, 0, 0, 0], dull, 50),
            entry_of([1, 0, 1, 0], dark, 50),
            entry_of([1, 0, 1, 1], light, 50),
        ]
    );
}

/// The intensities of a hue's dull pixels are judged without those of its strong ones.
#[test]
fn a_parent_s_pixels_only() {
    let (dull, strong) = ([120, 100, 100], [200, 80, 80]);
    let few = [([180, 160, 160], 1)];
    let pixels = repeated(&[[(dull, 60), (strong, 60)].as_slice(), &few].concat());
    let card = card(&pixels, 0);
    assert_eq!(card.entries.len(), 2, "{:?}", card.entries);
    assert_eq!(card.entries[0].count, 61);
}

/// D3: each entry's count is the number of pixels that bear its number, and they add up.
#[test]
fn counts_are_those_of_the_labels() {
    for closeness in [-10, -1, 0, 1, 5, 20] {
        let pixels = mixed(3000);
        let card = card(&pixels, closeness);
        assert_eq!(card.labels.len(), pixels.len());
        for (number, entry) in card.entries.iter().enumerate() {
            let bearing = card.labels.iter().filter(|&&label| label == number);
            assert_eq!(bearing.count(), entry.count as usize);
            assert!(entry.count > 0);
        }
        let all: u32 = card.entries.iter().map(|entry| entry.count).sum();
        assert_eq!(all as usize, pixels.len());
    }
}

/// The places of pixels do not matter to the entries, and labels go with the pixels.
#[test]
fn pixels_in_another_order() {
    let pixels = mixed(2000);
    let backwards: Vec<Pixel> = pixels.iter().rev().copied().collect();
    let (a, b) = (card(&pixels, 2), card(&backwards, 2));
    assert_eq!(a.entries, b.entries);
    assert!(a.labels.iter().eq(b.labels.iter().rev()));
}

#[test]
fn entries_are_in_order() {
    let card = card(&mixed(3000), 0);
    let keys: Vec<[u8; 4]> = card
        .entries
        .iter()
        .map(|entry| [entry.kind, entry.hue, entry.saturation, entry.intensity])
        .collect();
    assert!(keys.is_sorted_by(|a, b| a < b), "{keys:?}");
    assert!(keys.iter().any(|key| key[0] == 0) && keys.iter().any(|key| key[0] == 1));
}
