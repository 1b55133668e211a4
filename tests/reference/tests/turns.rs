//! Rings and the same rings turned (R9): with a single lowest bin everything turns along; with two it need not.

#[path = "common/scatter.rs"]
mod scatter;

use reference::calls::{ring_modes, LEAST_CLOSENESS, MOST_CLOSENESS};
use reference::rings::{finished, opening, separators, Finished};
use reference::turns::*;
use scatter::Scatter;

/// No bin, one bin, one bin back, a full turn, one bin more, five turns and two bins, and the largest number there is.
fn turns(bins: usize) -> [usize; 7] {
    [0, 1, bins - 1, bins, bins + 1, 5 * bins + 2, usize::MAX]
}

#[test]
fn bin_b_comes_to_be_bin_b_and_the_turn_round_the_ring() {
    let ring = [5, 6, 7, 8];
    for (by, expected) in [
        (0, [5, 6, 7, 8]),
        (1, [8, 5, 6, 7]),
        (3, [6, 7, 8, 5]),
        (4, [5, 6, 7, 8]),
        (5, [8, 5, 6, 7]),
        (4_000_002, [7, 8, 5, 6]),
        (usize::MAX, [6, 7, 8, 5]),
    ] {
        assert_eq!(turned(&ring, by), expected, "by {by}");
        for (bin, count) in ring.iter().enumerate() {
            assert_eq!(expected[turned_bin(bin, 4, by)], *count, "by {by}");
        }
    }
    assert_eq!(turned(&[7], 3), [7]);
    assert_eq!(turned::<u32>(&[], 3), []);
}

#[test]
fn separators_turn_in_their_order_or_as_a_list() {
    assert_eq!(turned_starts(&[3, 5, 1], 6, 2), [5, 1, 3]);
    assert_eq!(turned_list(&[1, 3, 5], 6, 2), [1, 3, 5]);
    assert_eq!(turned_starts(&[0, 4], 6, 2), [2, 0]);
    assert_eq!(turned_list(&[0, 4], 6, 2), [0, 2]);
}

#[test]
fn the_lowest_bins_are_counted() {
    assert_eq!(lowest_bins(&[3, 1, 2]), 1);
    assert_eq!(lowest_bins(&[1, 9, 0, 0, 9]), 2);
    assert_eq!(lowest_bins(&[7; 5]), 5);
}

#[test]
fn contents_do_not_depend_on_the_numbers_of_modes() {
    assert_eq!(contents(&[2, 2, 0, 1, 1, 2]), [0, 0, 2, 3, 3, 0]);
    assert_eq!(contents(&[0, 0, 5, 7, 7, 0]), [0, 0, 2, 3, 3, 0]);
    assert_ne!(contents(&[0, 0, 5, 7, 5, 0]), contents(&[0, 0, 5, 7, 7, 0]));
}

/// The opening, bin 6, is no separator, and lies with bin 7 in the last mode.
#[test]
fn each_bin_has_the_number_of_its_mode() {
    let ring = finished(&[2, 20, 2, 2, 2, 13, 1, 20, 2, 2], 3);
    assert_eq!(mode_of_each(&ring, 10), [0, 0, 1, 1, 1, 1, 1, 1, 0, 0]);
}

/// Rings that open in a dip inside a hump, and are joined past it at some closeness.
const DENTED: [&[u64]; 6] = [
    &[9, 30, 10, 10, 10, 10, 30],
    &[9, 30, 11, 10, 11, 30],
    &[2, 20, 2, 2, 2, 13, 1, 20, 2, 2],
    &[2, 13, 2, 13, 5, 1, 13, 2, 13, 2],
    &[6, 2, 13, 4, 3, 3, 13, 11, 14, 3, 13],
    &[7, 3, 3, 3, 8, 2, 3, 7, 9, 3],
];

/// These, and scattered counts with one bin made the lowest: steep and shallow, of few bins and of as many as there are
/// hues.
fn rings_with_one_lowest_bin() -> Vec<Vec<u64>> {
    let mut scatter = Scatter(9);
    let mut rings: Vec<Vec<u64>> = DENTED.map(Vec::from).into();
    for (least, range) in [(1, 2), (1, 6), (1, 50), (10, 3), (100, 8), (1, 3_000)] {
        for bins in (2..=13).chain([24]) {
            let mut ring = scatter.line(bins, least, range);
            ring[bins / 3] = least - 1;
            rings.push(ring);
        }
    }
    let mut hues = scatter.line(60, 1_000, 3);
    hues[20] = 999;
    rings.push(hues);
    rings
}

/// Separators by mode and as a list, modes by number: all of it as the turn takes it.
fn assert_turns_along(counts: &[u64], closeness: i32, found: &Finished) {
    let bins = counts.len();
    let modes = mode_of_each(found, bins);
    for by in turns(bins) {
        let there = finished(&turned(counts, by), closeness);
        let what = format!("{counts:?} by {by} at {closeness}");
        let starts = turned_starts(&found.starts(), bins, by);
        assert_eq!(there.starts(), starts, "{what}");
        let list = turned_list(&found.separators(), bins, by);
        assert_eq!(there.separators(), list, "{what}");
        assert_eq!(mode_of_each(&there, bins), turned(&modes, by), "{what}");
    }
}

/// Whether some turn leaves the list in another order: it then begins with another separator than the first, turned.
fn list_is_reordered(bins: usize, found: &Finished) -> bool {
    let list = found.separators();
    let is_reordered = |&by: &usize| turned_starts(&list, bins, by) != turned_list(&list, bins, by);
    turns(bins).iter().any(is_reordered)
}

/// At every closeness, with some rings of several modes, some whose list begins elsewhere once they are turned, and some
/// joined past the opening.
#[test]
fn with_a_single_lowest_bin_separators_and_modes_turn_along() {
    let rings = rings_with_one_lowest_bin();
    let (mut several, mut reordered, mut joined) = (0, 0, 0);
    for counts in &rings {
        assert_eq!(lowest_bins(counts), 1);
        for closeness in LEAST_CLOSENESS..=MOST_CLOSENESS {
            let found = finished(counts, closeness);
            assert_turns_along(counts, closeness, &found);
            several += usize::from(found.modes.len() > 1);
            joined += usize::from(found.traits.past_the_opening > 0);
            reordered += usize::from(list_is_reordered(counts.len(), &found));
        }
    }
    assert!(several >= 500, "{several}");
    assert!(reordered >= 500, "{reordered}");
    assert!(joined >= 10, "{joined}");
}

/// 0, 9, 1, 9, 0 has the set 0, 2, where 2, 4 would be due. Bins 2 and 4 share a mode; turned they are bins 4 and 1, and
/// do not.
#[test]
fn with_two_lowest_bins_a_ring_need_not_turn_along() {
    let ring = [1, 9, 0, 0, 9];
    let there = turned(&ring, 2);
    assert_eq!((lowest_bins(&ring), &there[..]), (2, &[0, 9, 1, 9, 0][..]));
    assert_eq!(turned_list(&separators(&ring, 0), 5, 2), [2, 4]);
    assert_eq!(separators(&there, 0), [0, 2]);
    let modes = mode_of_each(&finished(&ring, 0), 5);
    let modes_there = mode_of_each(&finished(&there, 0), 5);
    assert_eq!(modes[2], modes[4]);
    assert_ne!(modes_there[4], modes_there[1]);
    assert_ne!(contents(&modes_there), contents(&turned(&modes, 2)));
}

/// Turned by two bins it is the same ring, of one mode that starts at bin 0, where bin 2 would be due.
#[test]
fn with_two_lowest_bins_contents_may_be_kept_and_separators_not() {
    let ring = [0, 1, 0, 1];
    assert_eq!((lowest_bins(&ring), turned(&ring, 2)), (2, ring.to_vec()));
    assert_eq!(opening(&ring), 0);
    assert_eq!(separators(&ring, 0), [0]);
    assert_eq!(turned_list(&[0], 4, 2), [2]);
    assert_eq!(mode_of_each(&finished(&ring, 0), 4), [0; 4]);
}

/// Grounds 6, 7, 8 and 10.
#[test]
fn a_ring_that_is_turned_down_gets_the_same_number_turned() {
    let cases: [(u32, &[u32], i32, usize); 6] = [
        (6, &[5], 0, 1),
        (6, &[1; 257], 0, 257),
        (7, &[3, 65_530, 4], 0, 3),
        (8, &[3, 1, 2], LEAST_CLOSENESS - 1, 3),
        (8, &[3, 1, 2], MOST_CLOSENESS + 1, 3),
        (10, &[3, 1, 2], 0, 2),
    ];
    for (number, ring, closeness, places) in cases {
        for by in turns(ring.len()) {
            let mut list = vec![99; places];
            let answer = ring_modes(&turned(ring, by), closeness, &mut list);
            assert_eq!((answer.number, answer.separators), (number, 0), "by {by}");
            assert_eq!(list, vec![99; places]);
        }
    }
}
