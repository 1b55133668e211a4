//! The ring: the modes of a line from its lowest bin once round and back to that bin, then joined all round, where the
//! last mode and the first are neighbours. Here too every run of a length is weighed in full, and after a join all of
//! them are weighed again.

use crate::lines;
use crate::test::verdict;

/// The bin where a mode starts and the peak that it keeps, by the ring's own numbers. It ends where the next one starts;
/// a mode that is alone ends where it starts itself, a full turn on.
#[derive(Clone, Copy, Debug, PartialEq, Eq)]
pub struct Mode {
    pub separator: usize,
    pub peak: usize,
}

/// What happened to a ring after its opened line was finished, and how its modes lie, for whoever counts rings.
#[derive(Clone, Copy, Debug, Default, PartialEq, Eq)]
pub struct RingTraits {
    /// The joins made round the ring.
    pub joins: usize,
    /// Those of them that the line could not try: of runs that have the opening inside, not at one of their ends.
    ///
    /// These are always all of them. A run without the opening inside is a run of the line's modes, and the line has none
    /// left to join. The first join therefore takes the opening inside a mode, where it stays, and every other mode is as
    /// the line left it.
    pub past_the_opening: usize,
    /// How many modes the longest of the runs had that were joined, 0 if none was.
    pub longest: usize,
    /// Whether the modes are in another order than the list of their separators, which goes from bin 0 up and not from
    /// the opening on.
    pub rotated: bool,
}

/// A ring with nothing left to join: its modes, mode 0 being the first to start at the opening or after it, and its
/// traits.
#[derive(Clone, Debug, PartialEq, Eq)]
pub struct Finished {
    pub modes: Vec<Mode>,
    pub traits: RingTraits,
}

impl Finished {
    /// Where the modes start, in the order of the modes: from the opening on.
    pub fn starts(&self) -> Vec<usize> {
        self.modes.iter().map(|mode| mode.separator).collect()
    }

    /// The same bins as the call lists them: from the lowest number up. No mode has its number from this list.
    pub fn separators(&self) -> Vec<usize> {
        let mut list = self.starts();
        list.sort_unstable();
        list
    }
}

/// Modes side by side, by the number of the first. The last mode is followed by mode 0.
#[derive(Clone, Copy, Debug, PartialEq, Eq)]
struct Run {
    first: usize,
    len: usize,
}

/// What joining a run comes to: the smaller of its two costs, and the one mode that it leaves.
#[derive(Clone, Copy, Debug, PartialEq, Eq)]
struct Join {
    cost: i64,
    left: Mode,
}

/// Where the modes start, as the call lists it.
pub fn separators(counts: &[u64], closeness: i32) -> Vec<usize> {
    finished(counts, closeness).separators()
}

/// The modes of a ring of two bins or more. Mode 0 is the first to start at the opening or after it.
pub fn modes(counts: &[u64], closeness: i32) -> Vec<Mode> {
    finished(counts, closeness).modes
}

/// The traits of a ring.
pub fn traits(counts: &[u64], closeness: i32) -> RingTraits {
    finished(counts, closeness).traits
}

/// Modes and traits at once, for whoever wants both: finding them takes long.
pub fn finished(counts: &[u64], closeness: i32) -> Finished {
    let mut modes = modes_of_line(counts, closeness);
    let mut traits = RingTraits::default();
    while let Some((run, left)) = next_join(counts, closeness, &modes) {
        traits.joins += 1;
        traits.past_the_opening += usize::from(is_past_the_opening(counts, &modes, run));
        traits.longest = traits.longest.max(run.len);
        modes = joined(counts, &modes, run, left);
    }
    traits.rotated = !modes.is_sorted_by_key(|mode| mode.separator);
    Finished { modes, traits }
}

/// What the ring starts from. The line's repeated end is as low as any bin, so it is no mode's peak.
fn modes_of_line(counts: &[u64], closeness: i32) -> Vec<Mode> {
    let own_number = |bin| (opening(counts) + bin) % counts.len();
    lines::modes(&opened(counts), closeness)
        .into_iter()
        .map(|mode| Mode {
            separator: own_number(mode.start),
            peak: own_number(mode.peak),
        })
        .collect()
}

/// Of the shortest length that has a run to join, the cheapest run. Modes number from the opening, so the first of
/// equals is the one that starts soonest.
fn next_join(counts: &[u64], closeness: i32, modes: &[Mode]) -> Option<(Run, Mode)> {
    for len in 2..=modes.len() {
        let runs = (0..modes.len()).map(|first| Run { first, len });
        let joins = runs.map(|run| (run, join(counts, closeness, modes, run)));
        // `min_by_key` hands back the first of equals.
        let cheapest = joins.min_by_key(|(_, join)| join.cost);
        if let Some((run, join)) = cheapest.filter(|(_, join)| join.cost < 0) {
            return Some((run, join.left));
        }
    }
    None
}

/// The costs are those of a line, of stretches that are read round.
fn join(counts: &[u64], closeness: i32, modes: &[Mode], run: Run) -> Join {
    let first = modes[run.first];
    let last = modes[(run.first + run.len - 1) % modes.len()];
    let rise = rise(counts, first.separator, last.peak);
    let fall = fall(counts, first.peak, end(modes, run));
    let rise = verdict(&rise, true, closeness).cost;
    let fall = verdict(&fall, false, closeness).cost;
    let peak = if rise < fall { last.peak } else { first.peak };
    Join {
        cost: rise.min(fall),
        left: Mode {
            separator: first.separator,
            peak,
        },
    }
}

/// The modes with one in place of a run, numbered from the opening again: a join past the opening can take away the
/// separator from which they numbered.
fn joined(counts: &[u64], modes: &[Mode], run: Run, left: Mode) -> Vec<Mode> {
    let mut turned = modes.to_vec();
    turned.rotate_left(run.first);
    let mut all = [&[left], &turned[run.len..]].concat();
    let opening = opening(counts);
    all.sort_by_key(|mode| steps(counts, opening, mode.separator));
    all
}

/// The separator behind a run: that of the mode that follows, which is the run's own first after a full turn.
fn end(modes: &[Mode], run: Run) -> usize {
    modes[(run.first + run.len) % modes.len()].separator
}

fn is_past_the_opening(counts: &[u64], modes: &[Mode], run: Run) -> bool {
    let start = modes[run.first].separator;
    let to_opening = steps(counts, start, opening(counts));
    let to_end = steps_or_turn(counts, start, end(modes, run));
    0 < to_opening && to_opening < to_end
}

/// The counts round from a separator to a peak, both included.
pub fn rise(counts: &[u64], separator: usize, peak: usize) -> Vec<u64> {
    stretch(counts, separator, steps(counts, separator, peak))
}

/// The counts round from a peak to the next separator, both included. Equal bins have their peak on the separator, and
/// fall a full turn.
pub fn fall(counts: &[u64], peak: usize, separator: usize) -> Vec<u64> {
    stretch(counts, peak, steps_or_turn(counts, peak, separator))
}

fn stretch(counts: &[u64], first: usize, steps: usize) -> Vec<u64> {
    let bins = (first..=first + steps).map(|bin| bin % counts.len());
    bins.map(|bin| counts[bin]).collect()
}

/// How many steps round it takes from one bin to another, none to the bin itself.
fn steps(counts: &[u64], from: usize, to: usize) -> usize {
    (to + counts.len() - from) % counts.len()
}

/// The same, with a full turn to the bin itself.
fn steps_or_turn(counts: &[u64], from: usize, to: usize) -> usize {
    match steps(counts, from, to) {
        0 => counts.len(),
        steps => steps,
    }
}

/// The lowest bin, lowest-numbered of equals.
pub fn opening(counts: &[u64]) -> usize {
    let lowest = counts.iter().min();
    (0..counts.len())
        .find(|&bin| Some(&counts[bin]) == lowest)
        .expect("the lowest is one of them")
}

/// The line that is segmented first: one bin more than the ring has.
pub fn opened(counts: &[u64]) -> Vec<u64> {
    let mut line = counts.to_vec();
    line.rotate_left(opening(counts));
    line.push(line[0]);
    line
}

#[cfg(test)]
mod tests {
    use super::*;
    use crate::lines::Segment;
    use crate::turns::{turned, turned_bin};

    /// Each has joins round the small rings.
    const CLOSENESSES: [i32; 3] = [-3, 0, 5];

    /// Every ring of 2 to 6 bins with counts of 0, 1, 6 and 30, and of 7 bins with counts of 0, 1 and 6: from 7 bins on
    /// joins follow each other, or leave several modes.
    fn small_rings() -> Vec<Vec<u64>> {
        let mut rings = Vec::new();
        let levels: [(u32, &[u64]); 6] = [
            (2, &[0, 1, 6, 30]),
            (3, &[0, 1, 6, 30]),
            (4, &[0, 1, 6, 30]),
            (5, &[0, 1, 6, 30]),
            (6, &[0, 1, 6, 30]),
            (7, &[0, 1, 6]),
        ];
        for (bins, levels) in levels {
            for code in 0..levels.len().pow(bins) {
                let digit = |bin| code / levels.len().pow(bin) % levels.len();
                rings.push((0..bins).map(|bin| levels[digit(bin)]).collect());
            }
        }
        rings
    }

    /// Hands on each small ring with its modes, at each closeness, and sees to it that some were joined round the ring,
    /// and that the order of the modes is not that of the list on some.
    fn each_small_ring(visit: impl Fn(&[u64], i32, &[Mode])) {
        for closeness in CLOSENESSES {
            let (mut joined, mut rotated) = (0, 0);
            for counts in small_rings() {
                let Finished { modes, traits } = finished(&counts, closeness);
                visit(&counts, closeness, &modes);
                joined += traits.joins;
                rotated += usize::from(traits.rotated);
            }
            assert!(joined > 0 && rotated > 0, "at {closeness}");
        }
    }

    /// Where the modes of the opened line start.
    fn line_starts(counts: &[u64], closeness: i32) -> Vec<usize> {
        let modes = modes_of_line(counts, closeness);
        modes.iter().map(|mode| mode.separator).collect()
    }

    /// A ring that is more than its line.
    struct Sample {
        counts: &'static [u64],
        closeness: i32,
        line_starts: &'static [usize],
        joins: usize,
        /// Separators and peaks.
        modes: &'static [(usize, usize)],
    }

    impl Sample {
        fn check(&self) {
            let (counts, closeness) = (self.counts, self.closeness);
            assert_eq!(line_starts(counts, closeness), self.line_starts);
            assert_eq!(found(counts, closeness), self.modes);
            let traits = traits(counts, closeness);
            assert_eq!(traits.joins, self.joins);
            assert_eq!(traits.past_the_opening, self.joins);
        }

        /// The only lowest bin takes the opening along, so that everything else turns with it.
        fn check_turned(&self) {
            self.check();
            let bins = self.counts.len();
            for by in 1..bins {
                let counts = turned(self.counts, by);
                let turned = |&(separator, peak): &(usize, usize)| {
                    (turned_bin(separator, bins, by), turned_bin(peak, bins, by))
                };
                let expected: Vec<(usize, usize)> = self.modes.iter().map(turned).collect();
                assert_eq!(found(&counts, self.closeness), expected, "{counts:?}");
            }
        }
    }

    fn found(counts: &[u64], closeness: i32) -> Vec<(usize, usize)> {
        let modes = modes(counts, closeness).into_iter();
        modes.map(|mode| (mode.separator, mode.peak)).collect()
    }

    #[test]
    fn a_ring_opens_at_its_lowest_bin() {
        assert_eq!(opened(&[4, 2, 7, 3]), [2, 7, 3, 4, 2]);
        assert_eq!(opened(&[5, 1, 4, 1, 6]), [1, 4, 1, 6, 5, 1]);
        assert_eq!(opened(&[1, 4, 1]), [1, 4, 1, 1]);
        assert_eq!(opened(&[3, 3]), [3, 3, 3]);
    }

    #[test]
    fn stretches_are_read_round() {
        let counts = [5, 1, 4, 2, 6];
        assert_eq!(rise(&counts, 1, 2), [1, 4]);
        assert_eq!(rise(&counts, 3, 2), [2, 6, 5, 1, 4]);
        assert_eq!(rise(&counts, 3, 3), [2]);
        assert_eq!(fall(&counts, 4, 1), [6, 5, 1]);
        assert_eq!(fall(&counts, 4, 3), [6, 5, 1, 4, 2]);
        assert_eq!(fall(&counts, 3, 3), [2, 6, 5, 1, 4, 2]);
    }

    /// The opening is bin 2. A full turn from there has it at both ends.
    #[test]
    fn a_run_is_past_the_opening_if_that_is_inside() {
        let counts = [5, 9, 0, 9, 1, 9];
        let mode = |(separator, peak)| Mode { separator, peak };
        let modes = [(2, 3), (4, 5), (0, 1)].map(mode);
        let past = |first, len| is_past_the_opening(&counts, &modes, Run { first, len });
        assert_eq!([0, 1, 2].map(|first| past(first, 2)), [false, false, true]);
        assert_eq!([0, 1, 2].map(|first| past(first, 3)), [false, true, true]);
    }

    #[test]
    fn separators_are_the_ring_s_own_numbers() {
        // 0, 20, 0, 20, 0, as a ring, and turned on by one and by three bins.
        assert_eq!(separators(&[0, 20, 0, 20], 0), [0, 2]);
        assert_eq!(separators(&[20, 0, 20, 0], 0), [1, 3]);
        assert_eq!(separators(&[30, 9, 0, 40, 9, 1], 0), [2, 5]);
        assert_eq!(separators(&[0, 20, 0, 20], 13), [0, 2]);
        assert_eq!(separators(&[0, 20, 0, 20], 14), [0]);
        assert_eq!(separators(&[20, 0, 20, 0], 14), [1]);
        assert_eq!(separators(&[0, 1, 0, 1], 0), [0]);
        assert_eq!(separators(&[0, 1, 0, 1], -10), [0, 2]);
    }

    #[test]
    fn zeros_and_equal_bins_are_one_mode() {
        for bins in 2..=24 {
            for count in [0, 1, 2_000] {
                for closeness in [-10, 0, 20] {
                    let counts = vec![count; bins];
                    assert_eq!(found(&counts, closeness), [(0, 0)]);
                    assert_eq!(traits(&counts, closeness), RingTraits::default());
                }
            }
        }
    }

    /// Opened at bin 1, as 0, 20, 0, 0, 5, 0. The fit of the fall 20, 0, 0, 5, 0 puts 10/3 of the 25 counts into the two
    /// empty bins between the humps. That of the rise 0, 0, 5, 0, 20, past the opening, puts 5/2 into the one there.
    #[test]
    fn a_mode_that_goes_on_past_the_opening() {
        let lg = |x| crate::logarithm::lg(x) as i64;
        let (on_the_line, round) = (25 * (lg(75) - lg(65)), 25 * (lg(50) - lg(45)));
        let bar = lg(15);
        let fall = verdict(&[20, 0, 0, 5, 0], false, 0);
        let rise = verdict(&[0, 0, 5, 0, 20], true, 0);
        assert_eq!(fall.cost, on_the_line - bar);
        assert_eq!(rise.cost, round - bar);
        assert!(fall.cost > 0 && rise.cost < 0);
        Sample {
            counts: &[5, 0, 20, 0, 0],
            closeness: 0,
            line_starts: &[1, 3],
            joins: 1,
            modes: &[(3, 2)],
        }
        .check();
    }

    /// The four bins of 10 divide, and the one of 9 between the high bins does not, though the ring opens there. Of the
    /// two stretches from bin 2 once round, the rise 10, 10, 10, 10, 30, 9, 30 has the higher bar, so its peak is kept.
    #[test]
    fn a_hump_on_both_sides_of_the_opening() {
        Sample {
            counts: &[9, 30, 10, 10, 10, 10, 30],
            closeness: 2,
            line_starts: &[0, 2],
            joins: 1,
            modes: &[(2, 1)],
        }
        .check_turned();
    }

    /// The rise 10, 11, 30, 9, 30 and the fall 30, 9, 30, 11, 10 are mirror images.
    #[test]
    fn the_fall_counts_if_both_cost_the_same() {
        Sample {
            counts: &[9, 30, 11, 10, 11, 30],
            closeness: 3,
            line_starts: &[0, 3],
            joins: 1,
            modes: &[(3, 5)],
        }
        .check_turned();
    }

    #[test]
    fn modes_number_from_the_first_separator_after_the_opening() {
        Sample {
            counts: &[1, 0, 6, 0, 6, 0, 0],
            closeness: -3,
            line_starts: &[1, 3, 5],
            joins: 1,
            modes: &[(3, 4), (5, 2)],
        }
        .check();
        Sample {
            counts: &[2, 20, 2, 2, 2, 13, 1, 20, 2, 2],
            closeness: 3,
            line_starts: &[6, 8, 2],
            joins: 1,
            modes: &[(8, 1), (2, 7)],
        }
        .check_turned();
    }

    #[test]
    fn joins_follow_each_other() {
        Sample {
            counts: &[4, 0, 4, 0, 9, 0, 4, 0, 0, 0],
            closeness: -1,
            line_starts: &[1, 3, 5, 7],
            joins: 3,
            modes: &[(5, 4)],
        }
        .check();
        Sample {
            counts: &[5, 0, 20, 5, 20, 0, 20, 0, 0],
            closeness: 1,
            line_starts: &[1, 3, 5, 7],
            joins: 2,
            modes: &[(5, 6), (7, 4)],
        }
        .check();
    }

    /// A full turn could be joined at once, from bin 7; the pair at the opening goes first.
    #[test]
    fn short_runs_are_joined_before_long_ones() {
        let sample = Sample {
            counts: &[2, 13, 2, 13, 5, 1, 13, 2, 13, 2],
            closeness: 1,
            line_starts: &[5, 7, 9],
            joins: 2,
            modes: &[(9, 8)],
        };
        let line = modes_of_line(sample.counts, sample.closeness);
        let run = Run { first: 1, len: 3 };
        assert!(join(sample.counts, sample.closeness, &line, run).cost < 0);
        sample.check_turned();
    }

    /// No pair can be joined, but two of the full turns: the one from bin 4 starts sooner, that from bin 9 costs less.
    #[test]
    fn the_cheapest_run_of_a_length_is_joined() {
        let sample = Sample {
            counts: &[6, 2, 13, 4, 3, 3, 13, 11, 14, 3, 13],
            closeness: -1,
            line_starts: &[1, 4, 9],
            joins: 1,
            modes: &[(9, 8)],
        };
        let line = modes_of_line(sample.counts, sample.closeness);
        let cost = |first| join(sample.counts, -1, &line, Run { first, len: 3 }).cost;
        assert!(cost(2) < cost(1) && cost(1) < 0);
        sample.check_turned();
    }

    /// The full turns from bins 3 and 5 are mirror images. The ring opens at bin 1.
    #[test]
    fn of_equals_the_run_that_starts_soonest_after_the_opening_is_joined() {
        let sample = Sample {
            counts: &[1, 0, 1, 0, 6, 0],
            closeness: -3,
            line_starts: &[1, 3, 5],
            joins: 1,
            modes: &[(3, 4)],
        };
        let line = modes_of_line(sample.counts, sample.closeness);
        let cost = |first| join(sample.counts, -3, &line, Run { first, len: 3 }).cost;
        assert!(cost(1) == cost(2) && cost(1) < cost(0));
        sample.check();
        // Here it is after a first join that two runs cost the same, with the opening no longer a separator.
        Sample {
            counts: &[7, 3, 3, 3, 8, 2, 3, 7, 9, 3],
            closeness: -3,
            line_starts: &[5, 9, 1],
            joins: 2,
            modes: &[(9, 8)],
        }
        .check_turned();
    }

    #[test]
    fn the_longest_run_that_was_joined_is_told() {
        let longest = |counts: &[u64], closeness| traits(counts, closeness).longest;
        assert_eq!(longest(&[0, 20, 0, 20], 0), 0);
        assert_eq!(longest(&[4, 0, 4, 0, 9, 0, 4, 0, 0, 0], -1), 2);
        assert_eq!(longest(&[1, 0, 1, 0, 6, 0], -3), 3);
    }

    #[test]
    fn a_run_that_costs_exactly_0_is_not_joined() {
        let counts = [9, 21_710, 11, 11, 32];
        assert_eq!(verdict(&rise(&counts, 2, 1), true, 2).cost, 0);
        assert_eq!(found(&counts, 2), [(0, 1), (2, 4)]);
    }

    #[test]
    fn modes_start_in_the_order_from_the_opening() {
        each_small_ring(|counts, closeness, modes| {
            let bins = (0..counts.len()).map(|step| (opening(counts) + step) % counts.len());
            let met = bins.filter(|&bin| modes.iter().any(|mode| mode.separator == bin));
            assert!(met.eq(finished(counts, closeness).starts()), "{counts:?}");
        });
    }

    #[test]
    fn each_separator_is_listed_once_from_the_lowest_bin_up() {
        each_small_ring(|counts, closeness, modes| {
            let is_separator = |bin: &usize| modes.iter().any(|mode| mode.separator == *bin);
            let met = (0..counts.len()).filter(is_separator);
            assert!(met.eq(separators(counts, closeness)), "{counts:?}");
        });
    }

    /// Those that start at the opening or after it come first among the modes, and last in the list.
    #[test]
    fn a_ring_is_rotated_if_modes_start_on_both_sides_of_the_opening() {
        each_small_ring(|counts, closeness, modes| {
            let before = |mode: &Mode| mode.separator < opening(counts);
            let both = modes.iter().any(before) && !modes.iter().all(before);
            assert_eq!(traits(counts, closeness).rotated, both, "{counts:?}");
        });
    }

    #[test]
    fn a_join_only_takes_separators_away() {
        each_small_ring(|counts, closeness, modes| {
            let starts = line_starts(counts, closeness);
            assert!(modes.iter().all(|mode| starts.contains(&mode.separator)));
            let traits = traits(counts, closeness);
            assert!(modes.len() + traits.joins <= starts.len(), "{counts:?}");
            assert_eq!(traits.joins == 0, modes.len() == starts.len(), "{counts:?}");
        });
    }

    /// And from the first of them on, the opening is no separator.
    #[test]
    fn every_join_round_a_ring_is_past_the_opening() {
        each_small_ring(|counts, closeness, modes| {
            let traits = traits(counts, closeness);
            assert_eq!(traits.past_the_opening, traits.joins, "{counts:?}");
            let kept = modes[0].separator == opening(counts);
            assert_eq!(kept, traits.joins == 0, "{counts:?}");
        });
    }

    /// A mode goes on to the bin before the next separator, the last one to the bin before the first.
    #[test]
    fn each_bin_lies_in_exactly_one_mode() {
        each_small_ring(|counts, _, modes| {
            let mut held = vec![0; counts.len()];
            for (number, mode) in modes.iter().enumerate() {
                let next = modes[(number + 1) % modes.len()].separator;
                let mut bin = mode.separator;
                loop {
                    held[bin] += 1;
                    bin = (bin + 1) % counts.len();
                    if bin == next {
                        break;
                    }
                }
            }
            assert!(held.iter().all(|&times| times == 1), "{counts:?}");
        });
    }

    /// The ring as a line that goes round three times, and its modes as segments of that line, twice round.
    fn unrolled(counts: &[u64], modes: &[Mode]) -> (Vec<u64>, Vec<Segment>) {
        let line = counts.repeat(3);
        let bins = counts.len();
        let next = |from: usize, bin: usize| (from..).find(|place| place % bins == bin);
        let next = |from, bin| next(from, bin).expect("it is met within a turn");
        let mut start = modes[0].separator;
        let mut segments = Vec::new();
        for number in 0..2 * modes.len() {
            let following = modes[(number + 1) % modes.len()];
            let end = next(start + 1, following.separator);
            let peak = next(start, modes[number % modes.len()].peak);
            segments.push(Segment { start, peak, end });
            start = end;
        }
        (line, segments)
    }

    /// From each mode on, up to all of them.
    #[test]
    fn no_run_can_still_be_joined_anywhere() {
        each_small_ring(|counts, closeness, modes| {
            let (line, segments) = unrolled(counts, modes);
            for first in 0..modes.len() {
                for len in 2..=modes.len() {
                    let run = &segments[first..first + len];
                    let cost = lines::join(&line, closeness, run).cost;
                    assert!(cost >= 0, "{counts:?} at {closeness}: {run:?}");
                }
            }
        });
    }

    #[test]
    fn each_mode_is_a_single_hump() {
        each_small_ring(|counts, closeness, modes| {
            let (line, segments) = unrolled(counts, modes);
            for &Segment { start, peak, end } in &segments[..modes.len()] {
                assert!(start <= peak && peak < end && end <= start + counts.len());
                let rise = verdict(&line[start..=peak], true, closeness);
                let fall = verdict(&line[peak..=end], false, closeness);
                assert!(!rise.rejected && !fall.rejected, "{counts:?}");
            }
        });
    }
}
