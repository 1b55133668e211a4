//! Verdicts, modes and humps at a closeness below 0, where the bar of a stretch can be 0 or less.

#[path = "common/scatter.rs"]
mod scatter;

use reference::calls::{LEAST_CLOSENESS, MOST_CLOSENESS};
use reference::lines::{first_segments, join, modes, Segment};
use reference::logarithm::{lg, UNIT};
use reference::rings::{self, Mode};
use reference::test::{bar, has_step_against, verdict, Verdict};
use scatter::Scatter;

const BIT: i64 = UNIT as i64;

/// The most bins whose bar is below 0 at the least closeness: 44 bins have 990 parts and 45 have 1,035, either side of
/// 2 to the power of 10.
const MOST_BINS_BELOW_0: usize = 44;

/// From this closeness down the bar of two bins, which have three parts, is below 0.
const TWO_BINS_BELOW_0: i32 = -2;

#[test]
fn the_bar_is_below_0_up_to_44_bins() {
    assert!(bar(MOST_BINS_BELOW_0, LEAST_CLOSENESS) < 0);
    assert!(bar(MOST_BINS_BELOW_0 + 1, LEAST_CLOSENESS) > 0);
    assert!(bar(2, TWO_BINS_BELOW_0) < 0);
    assert!(bar(2, TWO_BINS_BELOW_0 + 1) > 0);
}

#[test]
fn a_cost_of_exactly_0_is_a_rejection() {
    // One block of a third; the bin of 1 weighs lg 3, which is lg 6 less one bit.
    let rejected = Verdict {
        cost: 0,
        rejected: true,
    };
    assert_eq!(verdict(&[1, 0, 0], true, -1), rejected);
    assert_eq!(verdict(&[0, 0, 1], false, -1), rejected);
}

/// Both directions cost more than 0; only the one with a step against it is rejected.
#[test]
fn the_step_decides_where_both_directions_cost_more_than_0() {
    let with_it = Verdict {
        cost: 10 * BIT - lg(3) as i64,
        rejected: false,
    };
    let against_it = Verdict {
        cost: 11 * BIT - lg(3) as i64,
        rejected: true,
    };
    assert!(with_it.cost > 0);
    assert_eq!(verdict(&[0, 1], true, LEAST_CLOSENESS), with_it);
    assert_eq!(verdict(&[1, 0], false, LEAST_CLOSENESS), with_it);
    assert_eq!(verdict(&[1, 0], true, LEAST_CLOSENESS), against_it);
    assert_eq!(verdict(&[0, 1], false, LEAST_CLOSENESS), against_it);
}

#[test]
fn equal_bins_are_accepted_both_ways() {
    for bins in 2..=MOST_BINS_BELOW_0 {
        let accepted = Verdict {
            cost: -bar(bins, LEAST_CLOSENESS),
            rejected: false,
        };
        assert!(accepted.cost > 0);
        for count in [0, 1, 1_000] {
            for rising in [true, false] {
                let found = verdict(&vec![count; bins], rising, LEAST_CLOSENESS);
                assert_eq!(found, accepted, "{bins} bins of {count}");
            }
        }
    }
}

/// Every stretch of 2 to 5 bins with counts of 0 to 3: below a bar of 0 those that are in order are accepted, and no
/// others, wherever the step against them is.
#[test]
fn below_a_bar_of_0_the_order_decides() {
    for bins in 2..=5 {
        for code in 0..4u64.pow(bins) {
            let counts: Vec<u64> = (0..bins).map(|bin| code / 4u64.pow(bin) % 4).collect();
            let rejected = |rising| verdict(&counts, rising, LEAST_CLOSENESS).rejected;
            assert_eq!(rejected(true), !counts.is_sorted(), "{counts:?}");
            let falls = counts.is_sorted_by(|a, b| a >= b);
            assert_eq!(rejected(false), !falls, "{counts:?}");
        }
    }
}

/// With a step against the fit and without one, below 0 and above: what is never rejected has no other cost for that.
#[test]
fn each_closeness_takes_a_bit_off_the_cost() {
    for (counts, rising, steps) in [
        ([5, 9, 2, 7], true, true),
        ([1, 2, 3, 3], true, false),
        ([4; 4], false, false),
    ] {
        let zero = verdict(&counts, rising, 0).cost;
        for closeness in LEAST_CLOSENESS..=MOST_CLOSENESS {
            let cost = zero - i64::from(closeness) * BIT;
            let expected = Verdict {
                cost,
                rejected: steps && cost >= 0,
            };
            assert_eq!(verdict(&counts, rising, closeness), expected);
        }
    }
}

/// Only a cost below 0 joins: the two segments of each of these lines stay where joining them costs exactly 0, and are
/// joined at the next closeness.
#[test]
fn a_run_that_costs_exactly_0_is_not_joined() {
    for (counts, closeness) in [([3_587, 3_414, 3_557], -1), ([3_305, 3_129, 3_212], -2)] {
        let first = first_segments(&counts);
        assert_eq!(first.len(), 2);
        assert_eq!(join(&counts, closeness, &first).cost, 0);
        assert_eq!(modes(&counts, closeness), first);
        assert_eq!(modes(&counts, closeness + 1).len(), 1);
    }
}

/// 10, 11, 10, 11 and so on.
fn ripple(bins: usize) -> Vec<u64> {
    (0..bins as u64).map(|bin| 10 + bin % 2).collect()
}

#[test]
fn a_ripple_of_52_bins_is_one_mode_at_the_least_closeness() {
    let counts = ripple(52);
    assert_eq!(first_segments(&counts).len(), 26);
    let found = modes(&counts, LEAST_CLOSENESS);
    assert_eq!(found.len(), 1, "{found:?}");
    assert_eq!((found[0].start, found[0].end), (0, 51));
}

#[test]
fn lines_of_44_bins_or_fewer_keep_their_first_segments_at_the_least_closeness() {
    let mut scatter = Scatter(44);
    for bins in 2..=MOST_BINS_BELOW_0 {
        for counts in [ripple(bins), scatter.line(bins, 0, 50)] {
            let kept = modes(&counts, LEAST_CLOSENESS);
            assert_eq!(kept, first_segments(&counts), "{counts:?}");
        }
    }
}

/// 1001, 1000, 1001 and so on: a fall or a rise over all of its bins weighs next to nothing, so that it is joined as soon
/// as its bar is above 0.
#[test]
fn a_line_of_45_bins_can_lose_its_first_segments() {
    for (bins, first, left) in [(44, 22, 22), (45, 23, 1)] {
        let counts: Vec<u64> = (0..bins).map(|bin| 1_001 - bin % 2).collect();
        assert_eq!(first_segments(&counts).len(), first);
        assert_eq!(modes(&counts, LEAST_CLOSENESS).len(), left);
    }
}

/// Steep ones, and shallow ones that are joined even below 0; the longest have a bar above 0 at every closeness.
fn scattered(seed: u64) -> Vec<Vec<u64>> {
    let mut scatter = Scatter(seed);
    let mut lines = Vec::new();
    for (least, range) in [(0, 2), (0, 6), (0, 50), (10, 3), (100, 8), (0, 3_000)] {
        for bins in 2..=13 {
            lines.push(scatter.line(bins, least, range));
        }
    }
    lines.extend([47, 50].map(|bins| scatter.line(bins, 1_000, 3)));
    lines
}

/// How many of the stretches of two bins or more were accepted in spite of a cost of 0 or more, and how many in spite
/// of a step against their fit.
#[derive(Default)]
struct Accepted {
    costly: usize,
    uneven: usize,
}

impl Accepted {
    fn add(&mut self, counts: &[u64], rising: bool, closeness: i32) {
        let Verdict { cost, rejected } = verdict(counts, rising, closeness);
        assert!(!rejected, "{counts:?} {rising} at {closeness}");
        self.costly += usize::from(counts.len() > 1 && cost >= 0);
        self.uneven += usize::from(has_step_against(counts, rising));
    }
}

/// The stretches that make a mode a single hump.
struct Hump {
    rise: Vec<u64>,
    fall: Vec<u64>,
}

/// At every closeness. The two tallies show that there is something to check: modes that were joined over a valley, and
/// stretches that nothing but their order keeps from being rejected.
fn check_humps(histograms: &[Vec<u64>], humps: fn(&[u64], i32) -> Vec<Hump>) {
    for closeness in LEAST_CLOSENESS..=MOST_CLOSENESS {
        let mut accepted = Accepted::default();
        for counts in histograms {
            for Hump { rise, fall } in humps(counts, closeness) {
                accepted.add(&rise, true, closeness);
                accepted.add(&fall, false, closeness);
            }
        }
        assert!(accepted.uneven > 0, "nothing was joined at {closeness}");
        let some = closeness <= TWO_BINS_BELOW_0;
        assert_eq!(accepted.costly > 0, some, "at {closeness}");
    }
}

fn humps_of_line(counts: &[u64], closeness: i32) -> Vec<Hump> {
    let hump = |Segment { start, peak, end }| Hump {
        rise: counts[start..=peak].to_vec(),
        fall: counts[peak..=end].to_vec(),
    };
    modes(counts, closeness).into_iter().map(hump).collect()
}

/// Read round: a mode ends at the separator of the next, the last one at that of the first.
fn humps_of_ring(counts: &[u64], closeness: i32) -> Vec<Hump> {
    let modes = rings::modes(counts, closeness);
    let next = modes.iter().cycle().skip(1);
    let hump = |(mode, next): (&Mode, &Mode)| Hump {
        rise: rings::rise(counts, mode.separator, mode.peak),
        fall: rings::fall(counts, mode.peak, next.separator),
    };
    modes.iter().zip(next).map(hump).collect()
}

#[test]
fn each_mode_of_a_line_is_a_single_hump_at_every_closeness() {
    check_humps(&scattered(1), humps_of_line);
}

/// Some of them are joined past the opening.
#[test]
fn each_mode_of_a_ring_is_a_single_hump_at_every_closeness() {
    let rings = scattered(2);
    check_humps(&rings, humps_of_ring);
    let joined = |closeness| {
        rings
            .iter()
            .any(|ring| rings::traits(ring, closeness).joins > 0)
    };
    assert!((LEAST_CLOSENESS..=MOST_CLOSENESS).any(joined));
}
