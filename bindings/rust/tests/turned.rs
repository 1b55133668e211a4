//! Rings that are turned: with a single lowest bin their separators turn along, with two they need not.

use kistrovu::raw::{LEAST_CLOSENESS, MOST_CLOSENESS};
use kistrovu::ring_modes;

/// Bin b comes to be bin b + 1, and the last one bin 0.
fn turned_by_one(ring: &[u32]) -> Vec<u32> {
    let mut turned = ring.to_vec();
    turned.rotate_right(1);
    turned
}

/// The separators, each turned by one bin, from the lowest bin up.
fn separators_by_one(separators: &[u32], bins: usize) -> Vec<u32> {
    let turned = |bin: &u32| (bin + 1) % bins as u32;
    let mut turned: Vec<u32> = separators.iter().map(turned).collect();
    turned.sort_unstable();
    turned
}

/// Bin by bin all the way round, at every closeness; the last two are joined past their opening at some.
#[test]
fn with_a_single_lowest_bin_separators_turn_along() {
    let rings: [&[u32]; 5] = [
        &[3, 9],
        &[1, 5, 2],
        &[2, 50, 9, 0, 50, 3, 60],
        &[9, 30, 10, 10, 10, 10, 30],
        &[2, 20, 2, 2, 2, 13, 1, 20, 2, 2],
    ];
    for ring in rings {
        for closeness in LEAST_CLOSENESS..=MOST_CLOSENESS {
            let mut ring = ring.to_vec();
            for _ in 0..ring.len() {
                let there = turned_by_one(&ring);
                let separators = ring_modes(&ring, closeness).unwrap();
                let due = separators_by_one(&separators, ring.len());
                assert_eq!(ring_modes(&there, closeness), Ok(due), "{ring:?}");
                ring = there;
            }
        }
    }
}

/// Turned by two bins, 0 and 2 would be 2 and 4.
#[test]
fn with_two_lowest_bins_separators_need_not_turn_along() {
    let ring = [1, 9, 0, 0, 9];
    let there = turned_by_one(&turned_by_one(&ring));
    assert_eq!(there, [0, 9, 1, 9, 0]);
    assert_eq!(ring_modes(&ring, 0), Ok(vec![0, 2]));
    assert_eq!(ring_modes(&there, 0), Ok(vec![0, 2]));
}
