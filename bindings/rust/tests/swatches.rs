//! The cards of the stored swatches: they agree with their labels, with what is printed, and with the stored cards.

mod common;

use common::{examples, file, of_entries, pixels, ENTRIES};
use kistrovu::{card, print_card, Card, Entry};

struct Swatch {
    name: String,
    text: String,
    /// The text of its card.
    stored: String,
    pixels: Vec<u8>,
    card: Card,
}

impl Swatch {
    fn new(name: &str, [text, stored]: [String; 2]) -> Swatch {
        let pixels = pixels(&text);
        let card = card(&pixels, 0).expect(name);
        let name = name.to_string();
        Swatch {
            name,
            text,
            stored,
            pixels,
            card,
        }
    }
}

/// The examples, and cards of many entries.
fn swatches() -> Vec<Swatch> {
    let example = |name: String| {
        let files = ["swatch", "card"].map(|ending| file(&format!("examples/{name}.{ending}")));
        Swatch::new(&name, files)
    };
    let full = |entries| Swatch::new(&format!("{entries} entries"), of_entries(entries));
    let examples = examples().into_iter().map(example);
    examples.chain(ENTRIES.map(full)).collect()
}

/// The mean of a channel over the pixels of an entry, halves rounded up.
fn mean(swatch: &Swatch, entry: usize, channel: usize) -> u32 {
    let labelled = swatch.pixels.chunks(3).zip(&swatch.card.labels);
    let own = labelled.filter(|(_, &label)| usize::from(label) == entry);
    let sum: u32 = own.map(|(pixel, _)| u32::from(pixel[channel])).sum();
    let count = swatch.card.entries[entry].count;
    (2 * sum + count) / (2 * count)
}

#[test]
fn counts_and_means_are_those_of_the_pixels_that_bear_the_label() {
    for swatch in swatches() {
        let name = &swatch.name;
        let Card { entries, labels } = &swatch.card;
        assert_eq!(labels.len(), swatch.pixels.len() / 3, "{name}");
        let mut counts = vec![0; entries.len()];
        for &label in labels {
            counts[usize::from(label)] += 1;
        }
        for (number, entry) in entries.iter().enumerate() {
            assert_eq!(entry.count, counts[number], "{name}, entry {number}");
            let means = [0, 1, 2].map(|channel| mean(&swatch, number, channel));
            let colour = [entry.red, entry.green, entry.blue].map(u32::from);
            assert_eq!(colour, means, "{name}, entry {number}");
        }
    }
}

/// A line of a card's text.
fn line(figures: &[u32]) -> String {
    let fields: String = figures.iter().map(|f| format!("{f:6}")).collect();
    fields + "\n"
}

fn figures(entry: &Entry) -> [u32; 8] {
    let Entry {
        hue,
        saturation,
        intensity,
        red,
        green,
        blue,
        ..
    } = *entry;
    let bytes = [hue, saturation, intensity, red, green, blue].map(u32::from);
    let [h, s, i, r, g, b] = bytes;
    [entry.kind as u32, h, s, i, r, g, b, entry.count]
}

#[test]
fn cards_are_the_stored_ones_and_so_is_what_is_printed() {
    for swatch in swatches() {
        let Swatch {
            name,
            text,
            stored,
            pixels,
            card,
        } = swatch;
        let mut lines = line(&[card.entries.len() as u32, pixels.len() as u32 / 3, 0]);
        lines.extend(card.entries.iter().map(|entry| line(&figures(entry))));
        assert_eq!(lines, stored, "{name}");
        let printed = print_card(text.as_bytes()).expect(&name);
        assert_eq!(printed.bytes(), stored.as_bytes(), "{name}");
    }
}
