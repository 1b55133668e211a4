//! The grounds and the answers of the two card calls.

mod common;

use common::CLOSENESSES;
use reference::calls::*;
use reference::cards::Entry;

const BLACK_AND_RED: [u8; 6] = [0, 0, 0, 255, 0, 0];

fn turned_down(number: u32) -> CardAnswer {
    CardAnswer {
        number,
        len: 0,
        entries: [Entry::default(); MOST_ENTRIES],
    }
}

/// The number, with a label for each whole pixel.
fn number(bytes: &[u8], closeness: i32) -> u32 {
    card(bytes, closeness, &mut vec![0; bytes.len() / 3]).number
}

#[test]
fn black_beside_red() {
    let mut labels = [9; 2];
    let answer = card(&BLACK_AND_RED, 0, &mut labels);
    let grey = Entry {
        count: 1,
        ..Entry::default()
    };
    let colour = Entry {
        kind: 1,
        red: 255,
        ..grey
    };
    assert_eq!((answer.number, answer.len), (0, 2));
    assert_eq!(answer.entries[..2], [grey, colour]);
    assert!(answer.entries[2..]
        .iter()
        .all(|entry| *entry == Entry::default()));
    assert_eq!(labels, [0, 1]);
}

#[test]
fn bytes_come_in_threes() {
    for (bytes, expected) in [(0, 4), (1, 4), (2, 4), (3, 0), (4, 4), (5, 4), (6, 0)] {
        assert_eq!(number(&vec![7; bytes], 0), expected);
    }
}

#[test]
fn pixels_are_65_536_at_most() {
    for (bytes, expected) in [
        (3 * 65_536, 0),
        (3 * 65_536 + 1, 4),
        (3 * 65_536 + 3, 5),
        (3 * 70_000, 5),
    ] {
        assert_eq!(number(&vec![7; bytes], 0), expected);
    }
}

#[test]
fn closeness_is_minus_10_to_20() {
    for (closeness, expected) in CLOSENESSES {
        assert_eq!(number(&BLACK_AND_RED, closeness), expected);
    }
}

#[test]
fn labels_are_as_many_as_pixels() {
    for (places, expected) in [(0, 9), (1, 9), (2, 0), (3, 9), (6, 9)] {
        let answer = card(&BLACK_AND_RED, 0, &mut vec![0; places]);
        assert_eq!(answer.number, expected);
    }
}

#[test]
fn the_first_ground_counts() {
    let mut labels = [7, 8, 9];
    let many = vec![1; 3 * 65_537];
    for closeness in [-11, 21] {
        let mut call = |bytes: &[u8]| card(bytes, closeness, &mut labels);
        assert_eq!(call(&[]), turned_down(4));
        assert_eq!(call(&[1; 4]), turned_down(4));
        assert_eq!(call(&many[1..]), turned_down(4));
        assert_eq!(call(&many), turned_down(5));
        assert_eq!(call(&BLACK_AND_RED), turned_down(8));
    }
    for closeness in [-10, 20] {
        let answer = card(&BLACK_AND_RED, closeness, &mut labels);
        assert_eq!(answer, turned_down(9));
    }
    assert_eq!(labels, [7, 8, 9]);
}

fn printed(answer: PrintedAnswer) -> (u32, String) {
    let len = answer.len as usize;
    assert!(answer.bytes[len..].iter().all(|&byte| byte == 0));
    let printed = String::from_utf8_lossy(&answer.bytes[..len]);
    (answer.number, printed.into_owned())
}

#[test]
fn black_beside_red_is_printed_as_given() {
    let text = b"     2     1\n   0   0   0\n 255   0   0\n";
    let expected = "     2     2     0\n\
        \x20    0     0     0     0     0     0     0     1\n\
        \x20    1     0     0     0   255     0     0     1\n";
    assert_eq!(printed(print_card(text)), (0, expected.to_string()));
    assert_eq!(program(text), print_card(text));
}

/// Black beside white is two entries at the least closeness and one at 0, which the text call works at and prints.
#[test]
fn the_text_call_works_at_closeness_0() {
    let looser = card(&[0, 0, 0, 255, 255, 255], LEAST_CLOSENESS, &mut [0; 2]);
    assert_eq!((looser.number, looser.len), (0, 2));
    let text = b"     2     1\n   0   0   0\n 255 255 255\n";
    let expected = "     1     2     0\n\
        \x20    0     0     0     0   128   128   128     2\n";
    assert_eq!(printed(print_card(text)), (0, expected.to_string()));
}

#[test]
fn for_a_text_turned_down_the_program_prints_the_number() {
    let cases: [(&[u8], u32); 4] = [
        (b"", 1),
        (b"     2     1", 1),
        (b"     0     1\n", 2),
        (b"     2     1\n   0   0   0\n", 3),
    ];
    for (text, number) in cases {
        assert_eq!(printed(print_card(text)), (number, String::new()));
        assert_eq!(printed(program(text)), (0, format!("{number:6}\n")));
    }
}

#[test]
fn a_ground_has_six_columns_and_a_line_feed() {
    for (number, line) in [
        (0, "     0\n"),
        (9, "     9\n"),
        (10, "    10\n"),
        (99_999, " 99999\n"),
        (100_000, "100000\n"),
        (999_999, "999999\n"),
        (1_000_000, "000000\n"),
        (1_000_010, "000010\n"),
        (u32::MAX, "967295\n"),
    ] {
        assert_eq!(printed(print_ground(number)), (0, line.to_string()));
    }
}

#[test]
fn room_is_for_the_most_entries() {
    let line = |fields: usize| 6 * fields + 1;
    assert_eq!(MOST_PRINTED, line(3) + 1_000 * line(8));
    assert_eq!(MOST_PRINTED, 49_019);
}

/// Greens with one hue bin left out, where the ring opens, and blues. The traits are those of what is served only.
#[test]
fn a_card_comes_with_the_traits_of_its_hues() {
    let greens = [[120, 200, 0], [110, 200, 0], [75, 200, 0], [60, 200, 0]];
    let mut pixels = greens.map(|green| vec![green; 8]).concat();
    pixels.extend([[100, 0, 200], [96, 0, 200]].repeat(40));
    let bytes = pixels.concat();
    for (closeness, number, joins) in [(0, 0, 1), (MOST_CLOSENESS + 1, 8, 0)] {
        let carded = Carded::of(&bytes, closeness, 112);
        let (mut labels, mut same_labels) = (vec![99; 112], vec![99; 112]);
        let answer = carded.answer(&mut labels);
        assert_eq!((answer.number, carded.hue_traits().joins), (number, joins));
        assert_eq!(card(&bytes, closeness, &mut same_labels), answer);
        assert_eq!(labels, same_labels);
    }
}
