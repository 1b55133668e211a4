//! Histograms for the modes of a line and of a ring.

use super::histograms::{every, limits, telling, Named, SHAPES};
use super::{rounds, turns, unwritten_list, Case};
use crate::calls::{Call, Listing};
use cloths::random::Random;
use compare::mode_shapes;
use compare::mode_ties::MODE_TIES;
use compare::shapes::Shape;
use reference::calls::{LEAST_CLOSENESS, MOST_BINS, MOST_CLOSENESS};

const LINE_SEED: u64 = 104;
const RING_SEED: u64 = 105;
/// More bins than a drawn histogram of the common shapes may have: the second implementation weighs every part of every
/// run.
const MOST_DRAWN: usize = 24;

/// A histogram with what it is for, a closeness, and the places of the list.
struct Asked {
    what: String,
    histogram: Vec<u32>,
    closeness: i32,
    places: usize,
}

/// With as many places as bins.
fn fitting((what, histogram): Named, closeness: i32) -> Asked {
    let places = histogram.len();
    Asked {
        what,
        histogram,
        closeness,
        places,
    }
}

fn given(asked: Asked, call: fn(Listing) -> Call) -> Case {
    let listing = Listing {
        histogram: asked.histogram,
        closeness: asked.closeness,
        list: unwritten_list(asked.places),
    };
    Case::new(asked.what, call(listing))
}

pub fn lines() -> Vec<Case> {
    let mut all = Vec::new();
    for closeness in [-10, -5, -4, 0] {
        all.push(sample("a sample", &[0, 1, 0, 1, 0], closeness));
    }
    all.extend(ripples());
    for closeness in [-10, 0, 13, 14] {
        let what = "a sample";
        all.push(sample(what, &[0, 20, 0, 20, 0], closeness));
    }
    all.extend(common(&[0, 20, 0, 20, 0]));
    all.extend(for_rules(LINE_RULES));
    all.extend(every_small(&[
        (3, &[0, 1, 5]),
        (4, &[0, 6]),
        (5, &[0, 20]),
        (7, &[0, 9]),
    ]));
    all.extend(ties());
    let shapes: [(&str, Shape); 2] = [
        ("few levels", mode_shapes::few_levels),
        ("periods", mode_shapes::periods),
    ];
    all.extend(drawn(LINE_SEED, &shapes));
    all.extend(longest(LINE_SEED));
    all.into_iter()
        .map(|asked| given(asked, Call::LineModes))
        .collect()
}

pub fn rings() -> Vec<Case> {
    let mut all = Vec::new();
    all.extend(ripples());
    for closeness in [-10, 0, 13, 14] {
        let what = "a sample of a line, as a ring";
        all.push(sample(what, &[0, 1, 0, 1], closeness));
        all.push(sample(what, &[0, 20, 0, 20], closeness));
        all.push(sample(what, &[20, 0, 20, 0], closeness));
    }
    all.extend(common(&[20, 0, 20, 0]));
    all.extend(for_rules(RING_RULES));
    all.extend(for_rules(rounds::ROUND_RULES));
    let round = rounds::rings().into_iter().chain(rounds::longest_lists());
    let round = round.chain(turns::rings());
    all.extend(round.map(|(named, closeness)| fitting(named, closeness)));
    all.extend(for_rules(rounds::LIST_RULES));
    all.extend(ring_places());
    all.extend(turned());
    all.extend(every_small(&[
        (2, &[0, 1, 20]),
        (3, &[0, 1, 20]),
        (4, &[0, 20]),
        (6, &[0, 9]),
    ]));
    all.extend(ties());
    let shapes: [(&str, Shape); 4] = [
        ("few levels", mode_shapes::few_levels),
        ("the lowest bin repeated", mode_shapes::lowest_repeated),
        (
            "flat and lowest over the seam",
            mode_shapes::lowest_over_the_seam,
        ),
        ("opened away from bin 0", mode_shapes::turned),
    ];
    all.extend(drawn(RING_SEED, &shapes));
    all.extend(longest(RING_SEED));
    all.into_iter()
        .map(|asked| given(asked, Call::RingModes))
        .collect()
}

fn sample(what: &str, histogram: &[u32], closeness: i32) -> Asked {
    let what = format!("{what}, at closeness {closeness}");
    fitting((what, histogram.to_vec()), closeness)
}

/// Humps all alike. At -10 the bar of a stretch is above 0 from 45 bins on; these join from 46 on.
fn ripples() -> Vec<Asked> {
    [42, 43, 44, 45, 46, 52]
        .map(|bins| {
            let counts = (0..bins).map(|bin| 10 + bin % 2).collect();
            let what = format!("a ripple of {bins} bins at the least closeness");
            fitting((what, counts), LEAST_CLOSENESS)
        })
        .into()
}

/// What lines and rings share: grounds, lists, and the histograms that tell. Two modes show how a list is written.
fn common(two_modes: &[u32]) -> Vec<Asked> {
    let mut all = closenesses(two_modes);
    all.extend(places(two_modes));
    all.extend(limits().into_iter().map(|named| fitting(named, 0)));
    all.extend(grounds_at_once());
    // Many modes in many bins are left out: the second implementation would take minutes.
    let short = |named: &Named| named.1.len() < MOST_BINS || named.1.iter().sum::<u32>() == 0;
    let telling = telling().into_iter().filter(short);
    all.extend(telling.map(|named| fitting(named, 0)));
    all
}

fn closenesses(two_modes: &[u32]) -> Vec<Asked> {
    [
        ("closeness -10, the least", -10),
        ("closeness -11: ground 8", -11),
        ("closeness 20, the largest", 20),
        ("closeness 21: ground 8", 21),
        ("a closeness that is 0 in 8 bits: ground 8", 1 << 8),
        ("a closeness that is 0 in 16 bits: ground 8", 1 << 16),
        (
            "a negative closeness that is 0 in 16 bits: ground 8",
            -(1 << 16),
        ),
        ("the least number as closeness: ground 8", i32::MIN),
        ("the largest number as closeness: ground 8", i32::MAX),
    ]
    .map(|(what, closeness)| fitting((what.to_string(), two_modes.to_vec()), closeness))
    .into()
}

fn places(two_modes: &[u32]) -> Vec<Asked> {
    let bins = two_modes.len();
    [
        ("a list without places: ground 10", 0),
        (
            "a list with places for the separators, but not for every bin: ground 10",
            3,
        ),
        ("a list one place short: ground 10", bins - 1),
        ("a list of as many places as bins", bins),
        ("a list one place longer, which stays as lent", bins + 1),
        ("a longer list, whose rest stays as lent", bins + 9),
        ("a list far longer than any histogram", 300),
    ]
    .map(|(what, places)| Asked {
        what: what.to_string(),
        histogram: two_modes.to_vec(),
        closeness: 0,
        places,
    })
    .into()
}

/// Three modes that start at bins 0, 3 and 5, of a ring that opens at bin 3.
fn ring_places() -> Vec<Asked> {
    let ring = [2, 50, 9, 0, 50, 3, 60];
    [
        (
            "a list of a place for each separator: ground 10; an engine that lists 0, 3, 5 there takes that for enough",
            3,
        ),
        (
            "a list one place short: ground 10; an engine that lists first and looks then has written to it",
            ring.len() - 1,
        ),
        (
            "a list of as many places as bins: 0, 3, 5; an engine that sorts it to its end moves the rest",
            ring.len(),
        ),
        (
            "a list one place longer: 0, 3, 5; an engine that sorts it to its end moves the rest",
            ring.len() + 1,
        ),
        (
            "a list far longer: 0, 3, 5; an engine that sorts it to its end moves the rest",
            300,
        ),
    ]
    .map(|(what, places)| Asked {
        what: what.to_string(),
        histogram: ring.to_vec(),
        closeness: 0,
        places,
    })
    .into()
}

/// Every choice of the grounds 6, 7, 8 and 10, and of none.
fn grounds_at_once() -> Vec<Asked> {
    let mut all = Vec::new();
    for choice in 0..16 {
        let holds =
            [(6, 1), (7, 2), (8, 4), (10, 8)].map(|(ground, bit)| (ground, choice & bit > 0));
        let numbers = holds.iter().filter(|(_, holds)| *holds);
        let numbers: Vec<String> = numbers.map(|(ground, _)| ground.to_string()).collect();
        let what = match numbers.as_slice() {
            [] => "no ground holds".to_string(),
            [one] => format!("ground {one} alone"),
            [first, ..] => format!("grounds {} hold: {first} comes first", numbers.join(", ")),
        };
        let mut histogram = vec![2; if holds[0].1 { MOST_BINS + 1 } else { 3 }];
        histogram[1] = if holds[1].1 { 65_537 } else { 9 };
        let places = histogram.len() - usize::from(holds[3].1);
        all.push(Asked {
            what,
            histogram,
            closeness: if holds[2].1 { MOST_CLOSENESS + 1 } else { 0 },
            places,
        });
    }
    all
}

/// Histograms on which an engine that has misread a rule gives other separators: the rule, a closeness, the counts.
pub type Rule = (&'static str, i32, &'static [u32]);

pub(super) const LINE_RULES: &[Rule] = &[
    ("the leftmost of equal runs is joined", 0, &[8, 1, 3, 1, 8]),
    (
        "the leftmost of equal runs is joined",
        0,
        &[16, 0, 4, 0, 16],
    ),
    (
        "the fall counts if both cost the same",
        0,
        &[0, 6, 4, 6, 0, 4],
    ),
    (
        "the fall counts if both cost the same",
        0,
        &[0, 4, 0, 4, 0, 0, 4],
    ),
    ("a peak is the first highest bin", 0, &[7, 1, 7, 7]),
    ("a peak is the first highest bin", 0, &[14, 14, 4, 14]),
    (
        "after a join runs of two come again",
        0,
        &[5, 0, 5, 0, 5, 0, 5],
    ),
    (
        "after a join runs of two come again",
        0,
        &[8, 1, 9, 1, 9, 1, 8],
    ),
    ("the smaller of the two costs counts", 1, &[6, 0, 2]),
    ("the smaller of the two costs counts", 0, &[20, 14, 39]),
    ("runs of three are joined too", 0, &[8, 1, 8, 1, 8]),
    ("runs of three are joined too", 0, &[16, 5, 17, 5, 16]),
    ("runs of four are joined too", 0, &[6, 0, 6, 0, 6, 0, 6]),
    (
        "runs of five are joined too",
        0,
        &[7, 0, 7, 0, 7, 0, 7, 0, 7],
    ),
    (
        "runs of six are joined too",
        0,
        &[8, 0, 8, 0, 8, 0, 8, 0, 8, 0, 8],
    ),
    (
        "a separator is the first bin of its valley",
        0,
        &[3, 0, 0, 3],
    ),
    (
        "a separator is the first bin of its valley",
        0,
        &[5, 0, 0, 0, 5],
    ),
    (
        "a rise keeps the last peak, a fall the first",
        0,
        &[14, 5, 20, 5, 14],
    ),
    (
        "a rise keeps the last peak, a fall the first",
        1,
        &[3, 0, 9, 0, 3],
    ),
    ("a fall may be joined, not only a rise", 0, &[4, 0, 1]),
    ("a fall may be joined, not only a rise", 0, &[16, 7, 8]),
    ("a rise may be joined, not only a fall", 0, &[8, 6, 15]),
    ("a rise may be joined, not only a fall", 0, &[11, 8, 27]),
    (
        "short runs are tried before long ones",
        0,
        &[3, 0, 6, 0, 5, 0, 3],
    ),
    (
        "short runs are tried before long ones",
        2,
        &[6, 0, 7, 5, 7, 0, 6],
    ),
    (
        "the cheapest run is joined, not the first that can be",
        0,
        &[0, 8, 0, 2, 1, 8, 0],
    ),
    (
        "the cheapest run is joined, not the first that can be",
        0,
        &[9, 0, 0, 2, 0, 0, 9],
    ),
    ("a fall keeps its first peak", 0, &[1, 0, 8, 0, 1, 1]),
    ("a fall keeps its first peak", 0, &[4, 0, 4, 0, 0, 4]),
    ("a rise keeps its last peak", 0, &[3, 0, 5, 0, 3]),
    ("a rise keeps its last peak", 0, &[5, 0, 5, 2, 8]),
    (
        "the peak kept need not be the higher one",
        0,
        &[7, 1, 7, 5, 7],
    ),
    (
        "the peak kept need not be the higher one",
        5,
        &[10, 0, 14, 10, 14],
    ),
    (
        "a plateau at the end has no separator of its own",
        0,
        &[3, 1, 1, 1],
    ),
    (
        "a plateau at the start has no separator of its own",
        0,
        &[1, 1, 1, 3],
    ),
];

const RING_RULES: &[Rule] = &[
    (
        "the leftmost of equal runs is joined",
        0,
        &[1, 8, 1, 3, 1, 8],
    ),
    (
        "the leftmost of equal runs is joined",
        0,
        &[2, 12, 2, 7, 2, 12],
    ),
    (
        "the fall counts if both cost the same",
        0,
        &[3, 20, 14, 20, 3, 14],
    ),
    (
        "the fall counts if both cost the same",
        2,
        &[0, 7, 0, 8, 7, 8],
    ),
    ("a peak is the first highest bin", 0, &[1, 8, 1, 8, 8]),
    ("a peak is the first highest bin", 0, &[4, 15, 15, 4, 15]),
    // What a line leaves is joined round the ring, so on few rings does it show that the line was not finished.
    (
        "after a join runs of two come again",
        -1,
        &[0, 3, 0, 4, 0, 3, 0, 3],
    ),
    ("runs of four are joined too", -4, &[3, 2, 3, 2, 5, 2, 5, 2]),
    (
        "runs of more than two are joined too",
        0,
        &[0, 5, 0, 5, 0, 5, 0, 5],
    ),
    (
        "runs of more than two are joined too",
        0,
        &[0, 8, 0, 5, 0, 5, 0, 8],
    ),
    ("runs of three are joined too", 0, &[0, 5, 0, 5, 0, 5]),
    ("runs of three are joined too", 0, &[2, 11, 2, 11, 2, 11]),
    (
        "a rise keeps the last peak, a fall the first",
        1,
        &[0, 3, 0, 7, 0, 3],
    ),
    (
        "a rise keeps the last peak, a fall the first",
        0,
        &[9, 35, 29, 35, 9, 26],
    ),
    (
        "short runs are tried before long ones",
        0,
        &[0, 5, 0, 5, 2, 5],
    ),
    (
        "short runs are tried before long ones",
        2,
        &[0, 8, 3, 8, 8, 0, 8],
    ),
    (
        "the cheapest run is joined, not the first that can be",
        0,
        &[9, 46, 9, 9, 17, 9, 46],
    ),
    (
        "the cheapest run is joined, not the first that can be",
        0,
        &[15, 38, 15, 21, 15, 21, 38],
    ),
    (
        "the peak kept need not be the higher one",
        0,
        &[2, 11, 2, 2, 11, 2, 11],
    ),
    (
        "the peak kept need not be the higher one",
        0,
        &[4, 15, 4, 4, 15, 13, 15],
    ),
];

fn for_rules(rules: &[Rule]) -> Vec<Asked> {
    let one =
        |&(rule, closeness, counts): &Rule| fitting((rule.to_string(), counts.to_vec()), closeness);
    rules.iter().map(one).collect()
}

/// One ring turned on bin by bin, and rings whose lowest bin comes again.
fn turned() -> Vec<Asked> {
    let mut all = Vec::new();
    let ring = [1, 30, 9, 0, 40, 9];
    for by in 0..ring.len() {
        let what = format!("a ring turned on by {by} bins");
        all.push(fitting((what, reference::turns::turned(&ring, by)), 0));
    }
    for ring in [
        vec![0, 0, 20],
        vec![20, 0, 0],
        vec![0, 20, 0],
        vec![5, 1, 4, 1, 6],
        vec![0, 20, 0, 20, 0, 20],
        vec![9, 0, 0, 9, 0, 0, 0, 9],
        vec![0, 0, 9, 9, 0, 9, 9, 0],
    ] {
        let what = "a ring opens at its lowest bin, lowest-numbered of equals".to_string();
        all.push(fitting((what, ring), 0));
    }
    all
}

fn every_small(levels: &[(u32, &[u32])]) -> Vec<Asked> {
    let small = |&(bins, counts): &(u32, &[u32])| every(bins, counts);
    let all = levels.iter().flat_map(small);
    all.map(|histogram| fitting(("every small histogram".to_string(), histogram), 0))
        .collect()
}

/// At the closeness of the tie, one below and one above; the first ones mirrored as well.
fn ties() -> Vec<Asked> {
    let mut all = Vec::new();
    for (index, &(cost, closeness, line)) in MODE_TIES.iter().enumerate() {
        let what = format!("as a line, at closeness {closeness}, joining costs {cost}");
        for closeness in closeness - 1..=closeness + 1 {
            all.push(fitting((what.clone(), line.to_vec()), closeness));
        }
        if index % 3 == 0 {
            let mirrored = line.iter().rev().copied().collect();
            all.push(fitting((format!("{what}, mirrored"), mirrored), closeness));
        }
    }
    all
}

fn drawn(seed: u64, more: &[(&str, Shape)]) -> Vec<Asked> {
    let mut random = Random::new(seed);
    let mut all = Vec::new();
    for bins in [2, 4, 7, 11, 16, MOST_DRAWN] {
        for (name, shape) in SHAPES.iter().chain(more) {
            let histogram = shape(&mut random, bins);
            let top = if random.coin() { 3 } else { MOST_CLOSENESS };
            let named = (format!("drawn: {name}, {bins} bins"), histogram);
            let mut asked = fitting(named, random.signed_within(LEAST_CLOSENESS, top));
            asked.places += random.below(3);
            all.push(asked);
        }
    }
    for index in 0..12 {
        let bins = [42, 52, 60][index % 3];
        let what = format!("drawn: as a cloth gives it, {bins} bins");
        let closeness = [0, 0, -10, -4, 10, 20][index / 2];
        all.push(fitting(
            (what, mode_shapes::cloth(&mut random, bins)),
            closeness,
        ));
    }
    all
}

/// As many bins as there can be, in few segments; and as many segments as there can be, joined pair by pair.
fn longest(seed: u64) -> Vec<Asked> {
    let mut random = Random::new(seed + 100);
    let mut all = Vec::new();
    for humps in 1..=3 {
        let what = format!("drawn: smooth humps, {humps} in 256 bins");
        let histogram = mode_shapes::smooth_humps(&mut random, MOST_BINS, humps);
        all.push(fitting((what, histogram), 3 * humps as i32));
    }
    let alternating = [0, 1].repeat(MOST_BINS / 2);
    let what = "as many segments as 256 bins can have".to_string();
    all.push(fitting((what, alternating), MOST_CLOSENESS));
    all
}
