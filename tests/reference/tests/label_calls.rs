//! Labels: those of one byte that are widened, and those of the same cards under the limit of labels of one byte.

#[path = "common/mixed.rs"]
mod mixed;

use mixed::mixed;
use reference::calls::*;
use reference::cards::Entry;

/// Labels as lent, above every label and each another one than the one before.
fn lent(places: usize) -> Vec<u16> {
    let label = |place: usize| u16::MAX - (place % 7) as u16;
    (0..places).map(label).collect()
}

/// The number, and the labels as they are left.
fn widened(narrow: &[u8], places: usize) -> (u32, Vec<u16>) {
    let mut labels = lent(places);
    (widen_labels(narrow, &mut labels), labels)
}

#[test]
fn every_byte_is_a_label() {
    let bytes: Vec<u8> = (0..=255).collect();
    assert_eq!(widened(&bytes, 256), (0, (0..256).collect()));
    for byte in 0..=255 {
        assert_eq!(widened(&[byte], 1), (0, vec![u16::from(byte)]));
    }
}

#[test]
fn places_are_kept() {
    assert_eq!(widened(&[255, 0, 7, 255], 4), (0, vec![255, 0, 7, 255]));
}

#[test]
fn two_empty_lists_are_served() {
    assert_eq!(widened(&[], 0), (0, vec![]));
}

#[test]
fn lists_of_other_lengths_are_turned_down() {
    for (bytes, places) in [(0, 1), (1, 0), (2, 3), (3, 2), (256, 0), (65_536, 65_537)] {
        let as_lent = (OTHER_PLACES, lent(places));
        assert_eq!(widened(&vec![1; bytes], places), as_lent);
    }
}

/// No other ground concerns it: the list may be longer than any image has pixels.
#[test]
fn long_lists_are_served() {
    for count in [65_536, 65_537, 200_000] {
        let bytes: Vec<u8> = (0..count).map(|place| (place % 251) as u8).collect();
        let labels = bytes.iter().map(|&byte| byte.into()).collect();
        assert_eq!(widened(&bytes, count), (0, labels));
    }
}

/// A card by both limits, with the labels of each.
struct Both {
    wide: (CardAnswer, Vec<u16>),
    narrow: (CardAnswer, Vec<u8>),
}

/// The closeness is the least, so that there are many entries.
fn both(pixels: u32) -> Both {
    let bytes = mixed(pixels).concat();
    let places = pixels as usize;
    let carded = Carded::of(&bytes, LEAST_CLOSENESS, places);
    let (mut wide, mut narrow) = (lent(places), vec![77; places]);
    Both {
        wide: (carded.answer(&mut wide), wide),
        narrow: (carded.narrow_answer(&mut narrow), narrow),
    }
}

fn turned_down(number: u32) -> CardAnswer {
    CardAnswer {
        number,
        len: 0,
        entries: [Entry::default(); MOST_ENTRIES],
    }
}

#[test]
fn few_entries_are_the_same_under_both_limits() {
    for pixels in [1, 20, 150] {
        let both = both(pixels);
        let (answer, labels) = &both.wide;
        assert!(answer.number == 0 && answer.len <= 255);
        assert_eq!(*answer, both.narrow.0);
        assert_eq!(widened(&both.narrow.1, labels.len()), (0, labels.clone()));
    }
}

#[test]
fn more_than_255_entries_have_labels_of_more_than_a_byte() {
    let both = both(800);
    let (answer, labels) = &both.wide;
    assert_eq!(both.narrow, (turned_down(TOO_MANY_ENTRIES), vec![77; 800]));
    assert_eq!(answer.number, 0);
    assert!((256..=1_000).contains(&answer.len), "{}", answer.len);
    for (label, entry) in answer.entries.iter().enumerate() {
        let bearing = labels.iter().filter(|&&of| usize::from(of) == label);
        assert_eq!(bearing.count(), entry.count as usize, "entry {label}");
    }
    assert_eq!(labels.iter().max(), Some(&(answer.len as u16 - 1)));
}

#[test]
fn more_than_1_000_entries_are_too_many_under_both_limits() {
    let both = both(3000);
    assert_eq!(both.wide, (turned_down(TOO_MANY_ENTRIES), lent(3000)));
    assert_eq!(both.narrow, (turned_down(TOO_MANY_ENTRIES), vec![77; 3000]));
}

/// Other grounds are the same: they have nothing to do with entries.
#[test]
fn an_earlier_ground_holds_under_both_limits() {
    let bytes = mixed(3000).concat();
    for (closeness, places, number) in [
        (LEAST_CLOSENESS - 1, 3000, 8),
        (LEAST_CLOSENESS, 2999, OTHER_PLACES),
    ] {
        let carded = Carded::of(&bytes, closeness, places);
        let answers = [
            carded.answer(&mut lent(places)),
            carded.narrow_answer(&mut vec![77; places]),
        ];
        assert_eq!(answers, [turned_down(number); 2]);
    }
}
