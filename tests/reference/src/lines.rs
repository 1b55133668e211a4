//! Modes of a line of bins, by the plain method: every run of a length is weighed in full, and after a join all of
//! them are weighed again.

use crate::test::verdict;
use std::iter::successors;

/// The bins from `start` to `end`, both separators, and the peak that is kept. What is left when no run can be joined
/// are the modes.
#[derive(Clone, Copy, Debug, PartialEq, Eq)]
pub struct Segment {
    pub start: usize,
    pub peak: usize,
    pub end: usize,
}

/// What joining a run comes to: the smaller of its two costs, and the one segment that it leaves.
#[derive(Clone, Copy, Debug, PartialEq, Eq)]
pub struct Join {
    pub cost: i64,
    pub left: Segment,
}

/// Where the modes start, and the last bin.
pub fn separators(counts: &[u64], closeness: i32) -> Vec<usize> {
    let starts = modes(counts, closeness).into_iter().map(|mode| mode.start);
    starts.chain([counts.len() - 1]).collect()
}

/// The modes of a line of two bins or more, from left to right.
pub fn modes(counts: &[u64], closeness: i32) -> Vec<Segment> {
    let last = stages(counts, closeness).pop();
    last.expect("the first segments are a stage")
}

/// How a line comes to its modes: its first segments, then those that each join leaves in turn, the modes at last.
pub fn stages(counts: &[u64], closeness: i32) -> Vec<Vec<Segment>> {
    stages_from(counts, closeness, first_segments(counts))
}

/// The same from any segments on, for whoever asks what would follow from them.
pub fn stages_from(counts: &[u64], closeness: i32, segments: Vec<Segment>) -> Vec<Vec<Segment>> {
    let next = |segments: &Vec<Segment>| next_joined(counts, closeness, segments);
    successors(Some(segments), next).collect()
}

pub fn first_segments(counts: &[u64]) -> Vec<Segment> {
    first_separators(counts)
        .windows(2)
        .map(|ends| Segment {
            start: ends[0],
            peak: first_highest(counts, ends[0], ends[1]),
            end: ends[1],
        })
        .collect()
}

/// The runs of equal bins, side by side: one whose two neighbours are both higher gives its first bin. The first run
/// and the last have one neighbour, and the line's ends instead.
fn first_separators(counts: &[u64]) -> Vec<usize> {
    let runs: Vec<&[u64]> = counts.chunk_by(|a, b| a == b).collect();
    let mut separators = vec![0];
    let mut first = 0;
    for three in runs.windows(3) {
        first += three[0].len();
        if three[0][0] > three[1][0] && three[1][0] < three[2][0] {
            separators.push(first);
        }
    }
    separators.push(counts.len() - 1);
    separators
}

fn first_highest(counts: &[u64], start: usize, end: usize) -> usize {
    let highest = counts[start..=end].iter().max();
    (start..=end)
        .find(|&bin| Some(&counts[bin]) == highest)
        .expect("the highest is one of them")
}

/// The segments after the next join: of the shortest length that has a run to join, the cheapest run, leftmost of
/// equals.
fn next_joined(counts: &[u64], closeness: i32, segments: &[Segment]) -> Option<Vec<Segment>> {
    for len in 2..=segments.len() {
        let joins = segments
            .windows(len)
            .map(|run| join(counts, closeness, run));
        // `min_by_key` hands back the first of equals.
        let cheapest = joins.enumerate().min_by_key(|(_, join)| join.cost);
        if let Some((first, join)) = cheapest.filter(|(_, join)| join.cost < 0) {
            let (before, behind) = (&segments[..first], &segments[first + len..]);
            return Some([before, &[join.left], behind].concat());
        }
    }
    None
}

/// A run of two segments or more. Its rise and its fall both go through a valley between two of its segments, so each of
/// them has a step against its fit, and a cost of 0 or more always means a rejection here. The fall counts when both
/// cost the same.
pub fn join(counts: &[u64], closeness: i32, run: &[Segment]) -> Join {
    let (first, last) = (run[0], run[run.len() - 1]);
    let rise = verdict(&counts[first.start..=last.peak], true, closeness).cost;
    let fall = verdict(&counts[first.peak..=last.end], false, closeness).cost;
    let peak = if rise < fall { last.peak } else { first.peak };
    Join {
        cost: rise.min(fall),
        left: Segment {
            start: first.start,
            peak,
            end: last.end,
        },
    }
}

#[cfg(test)]
mod tests {
    use super::*;
    use crate::test::has_step_against;

    /// Where the bar of each small line is below 0, of some of them, and of none.
    const CLOSENESSES: [i32; 4] = [-10, -3, 0, 4];

    /// Every line of 2 to 6 bins with counts of 0, 1, 5 and 20, and of 7 bins with counts of 0, 4 and 9.
    fn small_lines() -> Vec<Vec<u64>> {
        let mut lines = Vec::new();
        let levels: [(u32, &[u64]); 6] = [
            (2, &[0, 1, 5, 20]),
            (3, &[0, 1, 5, 20]),
            (4, &[0, 1, 5, 20]),
            (5, &[0, 1, 5, 20]),
            (6, &[0, 1, 5, 20]),
            (7, &[0, 4, 9]),
        ];
        for (bins, levels) in levels {
            for code in 0..levels.len().pow(bins) {
                let digit = |bin| code / levels.len().pow(bin) % levels.len();
                lines.push((0..bins).map(|bin| levels[digit(bin)]).collect());
            }
        }
        lines
    }

    fn segment(start: usize, peak: usize, end: usize) -> Segment {
        Segment { start, peak, end }
    }

    #[test]
    fn samples_that_are_given() {
        assert_eq!(separators(&[0, 1, 0, 1, 0], 0), [0, 4]);
        let humps = [0, 20, 0, 20, 0];
        assert_eq!(separators(&humps, 0), [0, 2, 4]);
        assert_eq!(separators(&humps, 13), [0, 2, 4]);
        assert_eq!(separators(&humps, 14), [0, 4]);
    }

    #[test]
    fn zeros_and_equal_bins_are_one_mode() {
        for bins in 2..=24 {
            for count in [0, 1, 2_000] {
                assert_eq!(separators(&vec![count; bins], 0), [0, bins - 1]);
                assert_eq!(modes(&vec![count; bins], 0), [segment(0, 0, bins - 1)]);
            }
        }
    }

    #[test]
    fn a_separator_is_the_first_bin_of_a_valley() {
        assert_eq!(first_separators(&[3, 1, 1, 2, 0, 4]), [0, 1, 4, 5]);
        assert_eq!(first_separators(&[3, 1, 1, 1]), [0, 3]);
        assert_eq!(first_separators(&[1, 1, 3, 3, 2, 2, 1]), [0, 6]);
        assert_eq!(first_separators(&[1, 2]), [0, 1]);
    }

    #[test]
    fn a_peak_is_the_first_highest_bin() {
        let counts = [2, 5, 5, 1, 1, 4, 4];
        assert_eq!(
            first_segments(&counts),
            [segment(0, 1, 3), segment(3, 5, 6)]
        );
        assert_eq!(
            first_segments(&[3, 1, 2]),
            [segment(0, 0, 1), segment(1, 2, 2)]
        );
    }

    #[test]
    fn the_fall_counts_if_both_cost_the_same() {
        // The line is its own mirror image, so both ways of joining cost the same.
        let counts = [0, 1, 0, 1, 0];
        let run = first_segments(&counts);
        let costs = [(0..=3, true), (1..=4, false)]
            .map(|(bins, rising)| verdict(&counts[bins], rising, 0).cost);
        assert_eq!(costs[0], costs[1]);
        assert_eq!(join(&counts, 0, &run).left, segment(0, 1, 4));
    }

    /// So it makes no difference to a join whether its cost is asked for or its rejection.
    #[test]
    fn both_stretches_of_a_run_have_a_step_against_their_fit() {
        for counts in small_lines() {
            let segments = first_segments(&counts);
            for len in 2..=segments.len() {
                for run in segments.windows(len) {
                    let (first, last) = (run[0], run[len - 1]);
                    let rise = &counts[first.start..=last.peak];
                    let fall = &counts[first.peak..=last.end];
                    assert!(has_step_against(rise, true), "{counts:?}");
                    assert!(has_step_against(fall, false), "{counts:?}");
                }
            }
        }
    }

    #[test]
    fn the_leftmost_of_equals_is_joined() {
        let counts = [0, 1, 0, 1, 0, 1, 0];
        let run = first_segments(&counts);
        let costs = [0, 1].map(|first| join(&counts, 0, &run[first..first + 2]).cost);
        assert_eq!(costs[0], costs[1]);
        let left = next_joined(&counts, 0, &run).expect("a pair can be joined");
        assert_eq!(left, [segment(0, 1, 4), segment(4, 5, 6)]);
    }

    /// D3, by the rules and without the joins that led there.
    #[test]
    fn no_run_of_modes_can_still_be_joined() {
        for counts in small_lines() {
            for closeness in CLOSENESSES {
                let modes = modes(&counts, closeness);
                for first in 0..modes.len() {
                    for last in first + 1..modes.len() {
                        let (first, last) = (modes[first], modes[last]);
                        let rise = &counts[first.start..=last.peak];
                        let fall = &counts[first.peak..=last.end];
                        assert!(verdict(rise, true, closeness).cost >= 0, "{counts:?}");
                        assert!(verdict(fall, false, closeness).cost >= 0, "{counts:?}");
                    }
                }
            }
        }
    }

    #[test]
    fn each_mode_is_a_single_hump() {
        for counts in small_lines() {
            for closeness in CLOSENESSES {
                for mode in modes(&counts, closeness) {
                    assert!(mode.start <= mode.peak && mode.peak <= mode.end);
                    let rise = verdict(&counts[mode.start..=mode.peak], true, closeness);
                    let fall = verdict(&counts[mode.peak..=mode.end], false, closeness);
                    assert!(!rise.rejected && !fall.rejected, "{counts:?}");
                }
            }
        }
    }

    /// A mode's bins run up to the bin before the next separator; the last mode takes the last bin.
    #[test]
    fn each_bin_lies_in_exactly_one_mode() {
        for counts in small_lines() {
            let modes = modes(&counts, 0);
            for bin in 0..counts.len() {
                let holds = |index: usize| {
                    let mode = modes[index];
                    let last = index + 1 == modes.len() && bin == mode.end;
                    (mode.start..mode.end).contains(&bin) || last
                };
                let held = (0..modes.len()).filter(|&index| holds(index)).count();
                assert_eq!(held, 1, "bin {bin} of {counts:?}");
            }
        }
    }

    #[test]
    fn a_line_s_separators_rise() {
        for counts in small_lines() {
            let separators = separators(&counts, 0);
            assert!(separators.is_sorted_by(|a, b| a < b), "{counts:?}");
            assert_eq!(separators[0], 0);
            assert_eq!(separators.last(), Some(&(counts.len() - 1)));
        }
    }
}
