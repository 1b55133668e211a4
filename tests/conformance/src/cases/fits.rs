//! Histograms for the fit, each in both directions.

use super::histograms::{every, limits, telling, Named, SHAPES};
use super::Case;
use crate::calls::Call;
use cloths::random::Random;

const SEED: u64 = 102;

pub fn cases() -> Vec<Case> {
    let mut all = samples();
    all.extend(limits());
    all.extend(telling());
    all.extend(every_small());
    all.extend(drawn());
    all.iter().flat_map(both_ways).collect()
}

fn both_ways((what, histogram): &Named) -> [Case; 2] {
    [(true, "increasing"), (false, "decreasing")].map(|(rising, direction)| {
        let histogram = histogram.clone();
        Case::new(
            format!("{what}; {direction}"),
            Call::Fit { histogram, rising },
        )
    })
}

fn samples() -> Vec<Named> {
    [vec![3, 1, 2], vec![1, 3, 2]]
        .map(|histogram| ("a sample".to_string(), histogram))
        .to_vec()
}

fn every_small() -> Vec<Named> {
    let two = every(2, &[0, 1, 2]).into_iter();
    let three = every(3, &[0, 1, 2]).into_iter();
    let four = every(4, &[0, 3]).into_iter();
    two.chain(three)
        .chain(four)
        .map(|histogram| ("every small histogram".to_string(), histogram))
        .collect()
}

fn drawn() -> Vec<Named> {
    let mut random = Random::new(SEED);
    let mut found = Vec::new();
    for bins in [2, 3, 5, 8, 13, 30, 60] {
        for (name, shape) in SHAPES {
            found.push((
                format!("drawn: {name}, {bins} bins"),
                shape(&mut random, bins),
            ));
        }
    }
    for (name, shape) in &SHAPES[..4] {
        found.push((format!("drawn: {name}, 256 bins"), shape(&mut random, 256)));
    }
    found
}
