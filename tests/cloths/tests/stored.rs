//! The stored files are those that are made, and their cards are what the reference prints.

use cloths::stored::{folders, printed};
use reference::calls::{print_card, MOST_PRINTED};
use reference::cards::{card, Pixel};
use reference::measures::measures;
use reference::{lines, rings, swatches};
use std::collections::BTreeSet;
use std::fs;

#[test]
fn files_are_as_made() {
    let mut count = 0;
    for folder in folders() {
        for made in &folder.made {
            let text = fs::read(folder.text_file(made.name)).expect(made.name);
            let card = fs::read(folder.card_file(made.name)).expect(made.name);
            assert!(text == made.text, "the text of {}", made.name);
            assert!(card == printed(&text), "the card of {}", made.name);
            count += 1;
        }
    }
    println!("{count} texts and cards");
}

#[test]
fn there_are_no_other_files() {
    for folder in folders() {
        let files = folder.files().expect("the folder can be read");
        let found: BTreeSet<String> = files.into_iter().collect();
        let others = folder.others.iter();
        let mut expected: BTreeSet<String> = others.map(|name| name.to_string()).collect();
        for made in &folder.made {
            expected.insert(format!("{}.{}", made.name, folder.ending));
            expected.insert(format!("{}.card", made.name));
        }
        assert_eq!(found, expected);
    }
}

/// The numbers are listed with the texts, by reading them, not by running anything.
#[test]
fn numbers_are_as_listed() {
    for folder in folders() {
        for made in &folder.made {
            assert_eq!(print_card(&made.text).number, made.number, "{}", made.name);
        }
    }
}

#[test]
fn names_differ_and_every_ground_is_met() {
    for folder in folders() {
        let names: BTreeSet<&str> = folder.made.iter().map(|made| made.name).collect();
        assert_eq!(names.len(), folder.made.len());
    }
    let [swatches, examples] = folders();
    let numbers: BTreeSet<u32> = swatches.made.iter().map(|made| made.number).collect();
    assert_eq!(numbers, BTreeSet::from([0, 1, 2, 3, 11]));
    assert!(examples.made.iter().all(|made| made.number == 0));
}

/// The limit, and the one that labels of one byte once set.
#[test]
fn the_limits_are_met_exactly() {
    let [swatches, _] = folders();
    let card = |name: &str| {
        let made = swatches.made.iter().find(|made| made.name == name);
        String::from_utf8(printed(&made.expect(name).text)).expect("a card is text")
    };
    for entries in [254, 255, 256, 257, 999, 1_000] {
        let card = card(&format!("{entries}-entries"));
        let head = format!("{entries:6}{:6}     0", 10 * entries);
        assert_eq!(card.lines().next(), Some(head.as_str()));
        assert_eq!(card.lines().count(), entries + 1);
    }
    assert_eq!(card("1000-entries").len(), MOST_PRINTED);
    assert_eq!(card("1001-entries"), "    11\n");
    assert_eq!(card("1001-entries-line-feed-missing"), "     3\n");
}

#[test]
fn the_longest_swatch_and_one_byte_more() {
    let [swatches, _] = folders();
    let len = |name: &str| {
        let made = swatches.made.iter().find(|made| made.name == name);
        made.expect(name).text.len()
    };
    assert_eq!(len("16384-pixels"), 13 * 16_385);
    assert_eq!(len("16384-pixels-one-byte-too-long"), 13 * 16_385 + 1);
    assert_eq!(len("16384-pixels-one-byte-too-short"), 13 * 16_385 - 1);
}

/// The opened line alone has two modes for the crimsons, the first and the last; joined past the opening they are one
/// entry, and no other pixel is in it.
#[test]
fn crimsons_on_both_sides_of_the_opening_are_one_entry() {
    let [folder, _] = folders();
    let wanted = "crimsons-on-both-sides-of-the-opening";
    let made = folder.made.iter().find(|made| made.name == wanted);
    let pixels = swatches::read(&made.expect(wanted).text).expect("it is served");
    let crimson = |[red, green, _]: &Pixel| *green < 40 && *red > 140;
    let mut ring = vec![0; 60];
    let mut hues = BTreeSet::new();
    for pixel @ [red, green, blue] in &pixels {
        let m = measures(*red, *green, *blue);
        ring[usize::from(m.hue)] += u64::from(!m.grey);
        hues.extend(crimson(pixel).then_some(m.hue));
    }
    assert_eq!(hues, BTreeSet::from([39, 40, 41, 43, 44, 45]));
    assert_eq!(rings::opening(&ring), 42);
    let of_line = lines::modes(&rings::opened(&ring), 0).len();
    assert_eq!((of_line, rings::modes(&ring, 0).len()), (4, 3));
    let card = card(&pixels, 0);
    let labels = card.labels.iter().zip(&pixels);
    let bear = |label: usize| labels.clone().filter(move |(&of, _)| of == label);
    let entries: BTreeSet<usize> = labels
        .clone()
        .filter(|(_, pixel)| crimson(pixel))
        .map(|(&label, _)| label)
        .collect();
    assert_eq!(entries.len(), 1);
    assert!(entries
        .iter()
        .all(|&label| bear(label).all(|(_, pixel)| crimson(pixel))));
}
