//! What R9 says of rings with two lowest bins, through the engine's call: they need not turn along.

use compare::turned_rings::listed_modes;
use reference::turns::{contents, lowest_bins, turned, turned_list};

/// The separators as the call lists them.
fn separators(ring: &[u32]) -> Vec<usize> {
    let mut list = vec![0; ring.len()];
    let answer = engine::ring_modes(&mut ring.to_vec(), 0, &mut list);
    assert_eq!(answer.number, 0);
    let count = answer.separators as usize;
    list[..count].iter().map(|&bin| bin as usize).collect()
}

/// The separator of each bin's mode, off that list.
fn modes(ring: &[u32]) -> Vec<Option<usize>> {
    listed_modes(&separators(ring), ring.len())
}

/// The set would be 2, 4, and is 0, 2. Bins 2 and 4 share a mode; turned they are bins 4 and 1, and lie in two.
#[test]
fn separators_and_contents_may_change() {
    let ring = [1, 9, 0, 0, 9];
    let there = turned(&ring, 2);
    assert_eq!((lowest_bins(&ring), &there[..]), (2, &[0, 9, 1, 9, 0][..]));
    assert_eq!(turned_list(&separators(&ring), 5, 2), [2, 4]);
    assert_eq!(separators(&there), [0, 2]);
    assert_eq!(modes(&ring)[2], modes(&ring)[4]);
    assert_ne!(modes(&there)[4], modes(&there)[1]);
    let due = contents(&turned(&modes(&ring), 2));
    assert_ne!(contents(&modes(&there)), due);
}

/// Turned by two bins it is the same ring. Its one mode keeps its bins, and its separator stays where it is.
#[test]
fn separators_may_change_and_contents_not() {
    let ring = [0, 1, 0, 1];
    let there = turned(&ring, 2);
    assert_eq!((lowest_bins(&ring), &there[..]), (2, &ring[..]));
    assert_eq!(turned_list(&separators(&ring), 4, 2), [2]);
    assert_eq!(separators(&there), [0]);
    let due = contents(&turned(&modes(&ring), 2));
    assert_eq!(contents(&modes(&there)), due);
}
