//! Turned rings (R9): turned by some number of bins, a ring has each count so many bins further on, past its last bin to
//! bin 0. What a turn does to separators and modes is said here, for whoever asks whether they turn along.

use crate::cards::mode_of;
use crate::rings::Finished;

/// The number that a bin has after the turn. `by` is any number, also a full turn and more.
pub fn turned_bin(bin: usize, bins: usize, by: usize) -> usize {
    (bin + by % bins) % bins
}

/// What each bin has, turned: the counts of a ring, or the modes of its bins.
pub fn turned<T: Clone>(ring: &[T], by: usize) -> Vec<T> {
    let mut turned = ring.to_vec();
    for (bin, value) in ring.iter().enumerate() {
        turned[turned_bin(bin, ring.len(), by)] = value.clone();
    }
    turned
}

/// Separators, each turned, in the order in which they are given.
pub fn turned_starts(starts: &[usize], bins: usize, by: usize) -> Vec<usize> {
    let turned = |&start: &usize| turned_bin(start, bins, by);
    starts.iter().map(turned).collect()
}

/// The same as a call lists them, from the lowest bin number up.
pub fn turned_list(list: &[usize], bins: usize, by: usize) -> Vec<usize> {
    let mut turned = turned_starts(list, bins, by);
    turned.sort_unstable();
    turned
}

/// How many bins have the lowest count. If only one has it, the opening turns along.
pub fn lowest_bins<T: Ord>(ring: &[T]) -> usize {
    let lowest = ring.iter().min();
    ring.iter().filter(|&count| Some(count) == lowest).count()
}

/// The number of the mode of each bin.
pub fn mode_of_each(ring: &Finished, bins: usize) -> Vec<usize> {
    let starts = ring.starts();
    (0..bins).map(|bin| mode_of(bin, &starts, bins)).collect()
}

/// For each bin the first that lies in its mode: the modes by their contents alone, whatever names or numbers they have.
pub fn contents<T: PartialEq>(modes: &[T]) -> Vec<usize> {
    let first = |mode: &T| modes.iter().position(|other| other == mode);
    let first = |mode| first(mode).expect("it is one of them");
    modes.iter().map(first).collect()
}
