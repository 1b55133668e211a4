//! Rings and the same rings turned (R9): with a single lowest bin their separators turn along, with two they need not.

use super::histograms::Named;
use reference::turns::turned;

/// With a closeness each.
pub fn rings() -> Vec<(Named, i32)> {
    let mut all = Vec::new();
    for (ring, closeness, about) in single_lowest() {
        let bins = ring.len();
        let mut turns = vec![0, 1, bins - 1];
        // A full turn changes nothing, so that and one bin more would be 0 and 1 again; of two bins one back is one on.
        turns.dedup();
        for by in turns {
            let what = format!("{bins} bins, the lowest one alone, {about}: turned by {by}");
            all.push(((what, turned(&ring, by)), closeness));
        }
    }
    all.extend(two_lowest());
    all
}

/// A ring of two or three bins has one mode. The longer ones have three or four, one of them from the last bin on: turned by
/// one bin it starts at bin 0, and the list begins with it.
fn single_lowest() -> Vec<(Vec<u32>, i32, &'static str)> {
    let mut all = vec![
        (vec![2, 7], -10, "one mode"),
        (vec![2, 8, 3], -10, "one mode"),
    ];
    for bins in [59, 60, 256] {
        let ring = dented_humps(bins);
        all.push((ring.clone(), 0, "four modes from the opening on"));
        all.push((ring, 4, "three modes, joined past the opening"));
    }
    all
}

/// Three humps with flat tops and wide valleys, one of which starts at the last bin. The lowest bin is a dent in the top
/// of the first.
fn dented_humps(bins: usize) -> Vec<u32> {
    let at = |bin: usize| {
        let place = 3 * (bin + 1) % bins;
        if 2 * place < bins {
            2
        } else {
            12
        }
    };
    let mut ring: Vec<u32> = (0..bins).map(at).collect();
    ring[bins / 4] = 1;
    ring
}

/// The opening is the first of the two; after the turn that may be the other one.
fn two_lowest() -> Vec<(Named, i32)> {
    let ring = vec![1, 9, 0, 0, 9];
    let there = turned(&ring, 2);
    [
        ("two lowest bins: listed 0, 2", ring),
        (
            "the same turned by 2: listed 0, 2 again; an engine that turns the list too has 2, 4",
            there,
        ),
    ]
    .map(|(what, ring)| ((what.to_string(), ring), 0))
    .into()
}
