//! Histograms for the verdict, each in both directions.

use super::denominators::DENOMINATORS;
use super::histograms::{every, limits, telling, Named, SHAPES};
use super::Case;
use crate::calls::Call;
use cloths::random::Random;
use compare::ties::TIES;
use reference::calls::{LEAST_CLOSENESS, MOST_CLOSENESS};

const SEED: u64 = 103;

/// A histogram with what it is for, and a closeness.
type Judged = (Named, i32);

pub fn cases() -> Vec<Case> {
    let mut all = samples();
    all.extend(closenesses());
    all.extend(steps());
    all.extend(limits().into_iter().map(|named| (named, 0)));
    all.extend(grounds_at_once());
    all.extend(telling().into_iter().map(|named| (named, 0)));
    all.extend(denominators());
    all.extend(every_small());
    all.extend(ties());
    all.extend(drawn());
    all.iter().flat_map(both_ways).collect()
}

fn both_ways(((what, histogram), closeness): &Judged) -> [Case; 2] {
    [(true, "increasing"), (false, "decreasing")].map(|(rising, direction)| {
        let call = Call::Verdict {
            histogram: histogram.clone(),
            rising,
            closeness: *closeness,
        };
        Case::new(format!("{what}; {direction}"), call)
    })
}

/// The stretches behind the samples of modes.
fn samples() -> Vec<Judged> {
    let mut judged = Vec::new();
    for histogram in [
        vec![0, 1, 0, 1],
        vec![1, 0, 1, 0],
        vec![0, 20, 0, 20],
        vec![20, 0, 20, 0],
    ] {
        for closeness in [-4, 0, 13, 14] {
            let what = "a stretch of the samples".to_string();
            judged.push(((what, histogram.clone()), closeness));
        }
    }
    judged
}

fn closenesses() -> Vec<Judged> {
    let histogram = vec![4, 9, 2, 7, 7, 1, 30];
    let served = (LEAST_CLOSENESS..=MOST_CLOSENESS)
        .map(|closeness| ("every closeness".to_string(), closeness));
    let refused = [
        ("closeness -11: ground 8", -11),
        ("closeness -12: ground 8", -12),
        ("closeness 21: ground 8", 21),
        ("closeness 22: ground 8", 22),
        ("a closeness that is 0 in 8 bits: ground 8", 1 << 8),
        ("a closeness that is 0 in 16 bits: ground 8", 1 << 16),
        (
            "a negative closeness that is 0 in 16 bits: ground 8",
            -(1 << 16),
        ),
        ("the least number as closeness: ground 8", i32::MIN),
        ("the largest number as closeness: ground 8", i32::MAX),
    ];
    let refused = refused.map(|(what, closeness)| (what.to_string(), closeness));
    served
        .chain(refused)
        .map(|(what, closeness)| ((what, histogram.clone()), closeness))
        .collect()
}

/// Where the bar is 0 or less every cost is 0 or more, and only a step against the fit rejects.
fn steps() -> Vec<Judged> {
    let all: [(&str, i32, &[u32]); 9] = [
        ("the bar is one bit, and the cost 0", -1, &[1, 0, 0]),
        ("one step, with a bar below 0", -10, &[0, 1]),
        ("equal bins have no step", -10, &[3, 3, 3]),
        ("no counts have no step", -10, &[0, 0, 0, 0]),
        ("a step each way", -10, &[2, 1, 2]),
        ("only the first step falls", -10, &[2, 1, 1, 1, 3]),
        ("only the last step falls", -10, &[1, 1, 2, 3, 2]),
        ("a bar just below 0", -5, &[1, 2, 3, 4, 5, 6, 7]),
        ("a bar just above 0", -5, &[1, 2, 3, 4, 5, 6, 7, 8]),
    ];
    all.map(|(what, closeness, counts)| ((what.to_string(), counts.to_vec()), closeness))
        .to_vec()
}

fn grounds_at_once() -> Vec<Judged> {
    [
        ("grounds 6, 7 and 8 hold: 6 comes first", vec![65_537]),
        ("grounds 6 and 8 hold: 6 comes first", vec![0; 257]),
        ("grounds 7 and 8 hold: 7 comes first", vec![65_536, 1]),
        ("ground 8 alone", vec![65_536, 0]),
    ]
    .map(|(what, histogram)| ((what.to_string(), histogram), LEAST_CLOSENESS - 1))
    .to_vec()
}

fn denominators() -> Vec<Judged> {
    DENOMINATORS
        .map(|(rule, _, counts)| ((rule.to_string(), counts.to_vec()), 0))
        .to_vec()
}

fn every_small() -> Vec<Judged> {
    let mut all = every(2, &[0, 1, 2, 20]);
    all.extend(every(3, &[0, 1, 5]));
    let judged = |histogram| (("every small histogram".to_string(), histogram), 0);
    all.into_iter().map(judged).collect()
}

/// At the closeness of the tie; some of them also at one below, and some mirrored.
fn ties() -> Vec<Judged> {
    let mut judged = Vec::new();
    for (index, &(cost, closeness, histogram)) in TIES.iter().enumerate() {
        let what = format!("increasing, at closeness {closeness}, the cost is {cost}");
        let named = (what, histogram.to_vec());
        if index % 3 == 0 {
            judged.push((named.clone(), closeness - 1));
        }
        judged.push((named.clone(), closeness));
        if index % 5 == 0 {
            let what = format!("decreasing, at closeness {closeness}, the cost is {cost}");
            let mirrored = histogram.iter().rev().copied().collect();
            judged.push(((what, mirrored), closeness));
        }
    }
    judged
}

fn drawn() -> Vec<Judged> {
    let mut random = Random::new(SEED);
    let mut found = Vec::new();
    for bins in [2, 3, 5, 8, 13, 30, 60] {
        for (name, shape) in SHAPES {
            let histogram = shape(&mut random, bins);
            let what = format!("drawn: {name}, {bins} bins");
            let closeness = random.signed_within(LEAST_CLOSENESS, MOST_CLOSENESS);
            found.push(((what, histogram), closeness));
        }
    }
    for (name, shape) in &SHAPES[..4] {
        let what = format!("drawn: {name}, 256 bins");
        found.push(((what, shape(&mut random, 256)), 0));
    }
    found
}
