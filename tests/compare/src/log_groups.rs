//! The named groups of logs of joins, each of which is one test: those of the lines, and some that are made for joins.

use crate::closenesses;
use crate::logs::{lengths, LogCase, Logs, Spoiled};
use crate::mode_groups::{ModesCase, ModesSource, BOTH, LINES};
use cloths::random::Random;
use reference::calls::MOST_BINS;
use reference::logs::RECORD;

/// A group: its lines, how many of them following from the count of the run, and what their logs have to be.
pub struct LogGroup {
    pub name: &'static str,
    pub cases: Source,
    pub spoiled: Spoiled,
    /// In thousandths of the lines.
    pub least: Logs,
}

pub enum Source {
    /// A group of lines, with this share of the count of the run, in hundredths.
    Lines(&'static ModesSource, usize),
    Own(fn(&mut Random, usize) -> Vec<LogCase>),
}

impl Source {
    pub fn cases(&self, random: &mut Random, count: usize) -> Vec<LogCase> {
        match self {
            Source::Own(cases) => cases(random, count),
            Source::Lines(lines, share) => {
                let cases = lines.cases(random, count * share / 100);
                cases.into_iter().enumerate().map(with_logs).collect()
            }
        }
    }
}

fn with_logs((place, case): (usize, ModesCase)) -> LogCase {
    LogCase {
        numbers: lengths(case.histogram.len(), place),
        histogram: case.histogram,
        closeness: case.closeness,
        places: case.places,
    }
}

const NOTHING: Logs = Logs {
    several: 0,
    long: 0,
    risen: 0,
    renumbered: 0,
    refused: 0,
    refused_of_each: 0,
};

// The least numbers are well below what the run without arguments has, so that another seed does not fall below by chance.

/// The groups made for joins.
const OWN: [LogGroup; 4] = [
    LogGroup {
        name: "high and low in turn",
        cases: Source::Own(in_turn),
        spoiled: Spoiled::Some,
        least: Logs {
            several: 400,
            long: 100,
            risen: 250,
            renumbered: 60,
            refused: 2_000,
            refused_of_each: 60,
        },
    },
    LogGroup {
        name: "spoiled in every way",
        cases: Source::Own(spoiled_in_every_way),
        spoiled: Spoiled::All,
        least: Logs {
            several: 350,
            long: 80,
            risen: 180,
            renumbered: 30,
            refused: 80_000,
            refused_of_each: 250,
        },
    },
    LogGroup {
        name: "every length of the log",
        cases: Source::Own(every_length),
        spoiled: Spoiled::Some,
        least: NOTHING,
    },
    LogGroup {
        name: "grounds of log and replay",
        cases: Source::Own(grounds),
        spoiled: Spoiled::All,
        least: NOTHING,
    },
];

/// The share of the count that is drawn in a group of lines.
const SHARE: usize = 25;

/// What groups of lines have to have, by name; the others have too few lines to be judged.
const LEAST: [(&str, Logs); 14] = [
    ("every small histogram", Logs::of([30, 8, 80, 0, 900, 8])),
    ("two bins", Logs::of([0, 0, 0, 0, 400, 0])),
    ("all zero and all equal", Logs::of([0, 0, 0, 0, 400, 0])),
    ("cost 0 and next to it", Logs::of([0, 0, 80, 0, 1_000, 0])),
    ("places of the list", Logs::of([20, 0, 30, 0, 450, 0])),
    (
        "every closeness -12 to 22",
        Logs::of([60, 0, 80, 0, 1_000, 8]),
    ),
    ("few levels", Logs::of([150, 8, 110, 2, 1_200, 20])),
    ("periods", Logs::of([250, 25, 150, 25, 1_500, 40])),
    ("noise", Logs::of([120, 2, 120, 18, 1_100, 18])),
    ("sparse", Logs::of([5, 0, 15, 0, 500, 0])),
    ("plateaus", Logs::of([15, 0, 30, 0, 700, 1])),
    ("equal means", Logs::of([50, 0, 80, 6, 900, 5])),
    ("spikes", Logs::of([220, 2, 220, 18, 1_500, 20])),
    ("alternating", Logs::of([180, 25, 90, 4, 1_150, 20])),
];

/// All groups, those of the lines first.
pub fn groups() -> Vec<LogGroup> {
    let lines = BOTH.iter().chain(&LINES);
    let of_lines = lines.map(|(name, source)| LogGroup {
        name,
        cases: Source::Lines(source, SHARE),
        spoiled: Spoiled::Some,
        least: least(name),
    });
    of_lines.chain(OWN).collect()
}

fn least(name: &str) -> Logs {
    let found = LEAST.into_iter().find(|(group, _)| *group == name);
    found.map_or(NOTHING, |(_, least)| least)
}

/// Every other bin low, so that there are as many segments as can be, and the bins between them nearly alike: then runs of
/// three and more are joined as well, and by either way.
fn high_and_low(random: &mut Random) -> Vec<u32> {
    let bins = 5 + random.below(11);
    let top = random.within(4, 14);
    let spread = random.within(0, top / 2);
    let low = random.within(0, 2);
    let start = random.below(2);
    (0..bins)
        .map(|bin| match (bin + start) % 2 {
            0 => random.within(top - spread, top),
            _ => random.within(0, low),
        })
        .collect()
}

fn fitting(place: usize, histogram: Vec<u32>, closeness: i32) -> LogCase {
    let bins = histogram.len();
    LogCase {
        histogram,
        closeness,
        numbers: lengths(bins, place),
        places: bins + place % 3,
    }
}

/// Around closeness 0, where some of their runs are joined and others are not.
fn in_turn(random: &mut Random, count: usize) -> Vec<LogCase> {
    (0..count / 20)
        .map(|place| {
            let closeness = random.signed_within(-2, 3);
            fitting(place, high_and_low(random), closeness)
        })
        .collect()
}

fn spoiled_in_every_way(random: &mut Random, _: usize) -> Vec<LogCase> {
    (0..600)
        .map(|place| {
            let closeness = random.signed_within(-1, 1);
            fitting(place, high_and_low(random), closeness)
        })
        .collect()
}

/// None, and each from there to some past the last that is asked for.
fn every_length(random: &mut Random, _: usize) -> Vec<LogCase> {
    (0..60)
        .map(|place| {
            let mut case = fitting(place, high_and_low(random), 0);
            let fewest = RECORD * case.histogram.len();
            case.numbers = (0..=fewest + 9).chain([1000, RECORD * MOST_BINS]).collect();
            case
        })
        .collect()
}

/// Each of the grounds with and without each of the others: the logs that are spoiled have ground 20, the own one has not.
fn grounds(_: &mut Random, _: usize) -> Vec<LogCase> {
    let mut cases = Vec::new();
    for bins in [0, 1, 2, 5, MOST_BINS, MOST_BINS + 1] {
        for last in [0, 1, 65_536, 65_537, u32::MAX] {
            for closeness in closenesses::AT_THE_ENDS {
                for places in [0, bins.saturating_sub(1), bins, bins + 1] {
                    let mut histogram = vec![0; bins];
                    if let Some(bin) = histogram.last_mut() {
                        *bin = last;
                    }
                    let numbers = (0..6).flat_map(|place| lengths(bins, place)).collect();
                    cases.push(LogCase {
                        histogram,
                        closeness,
                        numbers,
                        places,
                    });
                }
            }
        }
    }
    cases.extend(short_lists());
    cases
}

/// Lists that are too short for a line with joins, whose own log is then turned down as well.
fn short_lists() -> Vec<LogCase> {
    let line = [7, 1, 9, 0, 12, 1, 10, 0, 6, 0, 7, 2];
    let places = 0..=line.len();
    places
        .map(|places| LogCase {
            places,
            ..fitting(0, line.to_vec(), 1)
        })
        .collect()
}

#[cfg(test)]
mod tests {
    use super::*;
    use crate::comparison::Tally;
    use crate::logs::compare;
    use reference::calls::Joins;
    use std::collections::BTreeSet;

    /// Those of a group, with a count that draws some hundreds.
    fn cases(name: &str) -> Vec<LogCase> {
        let groups = groups();
        let group = groups.iter().find(|group| group.name == name);
        let group = group.expect(name);
        group.cases.cases(&mut Random::new(1), 10_000)
    }

    #[test]
    fn each_least_number_is_that_of_a_group_of_lines() {
        let lines: BTreeSet<&str> = BOTH.iter().chain(&LINES).map(|(name, _)| *name).collect();
        let judged: BTreeSet<&str> = LEAST.iter().map(|(name, _)| *name).collect();
        assert_eq!(judged.len(), LEAST.len());
        assert!(judged.is_subset(&lines));
    }

    #[test]
    fn group_names_are_all_different() {
        let groups = groups();
        let names: BTreeSet<&str> = groups.iter().map(|group| group.name).collect();
        assert_eq!(names.len(), groups.len());
    }

    #[test]
    fn logs_are_lent_with_the_fewest_numbers_with_fewer_and_with_more() {
        let lens: BTreeSet<usize> = (0..8).flat_map(|place| lengths(5, place)).collect();
        for numbers in [5, 16, 19, 20, 21, 22, 23, 24, 1020] {
            assert!(lens.contains(&numbers), "{numbers}");
        }
        assert!((0..8).all(|place| lengths(5, place).contains(&20)));
    }

    /// By the reference, as the groups of grounds lend them.
    #[test]
    fn each_ground_is_met_by_logs_and_by_replays() {
        let (mut of_logs, mut of_replays) = (BTreeSet::new(), BTreeSet::new());
        for case in cases("grounds of log and replay") {
            let joins = Joins::of(&case.histogram, case.closeness);
            for &numbers in &case.numbers {
                of_logs.insert(joins.log(&mut vec![0; numbers]).number);
            }
            let own = joins.line.as_ref().map(|line| line.numbers());
            for log in [own.unwrap_or_default(), vec![0]] {
                of_replays.insert(joins.replay(&log, &mut vec![0; case.places]).number);
            }
        }
        assert!(of_logs.into_iter().eq([0, 6, 7, 8, 10]));
        assert!(of_replays.into_iter().eq([0, 6, 7, 8, 10, 20]));
    }

    #[test]
    fn every_kind_of_damage_is_refused_in_the_group_made_for_it() {
        let mut tally = Tally::default();
        let cases = cases("spoiled in every way");
        for (place, case) in cases.iter().enumerate().take(60) {
            assert!(compare(case, place, Spoiled::All, &mut tally).is_ok());
        }
        assert!(tally.logs.found.refused_of_each >= 20);
    }
}
