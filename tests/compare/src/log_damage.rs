//! Ways to spoil the log of a line. A replay has to turn down what they make, unless it happens to be the line's log all the
//! same: two records that are alike can be swapped, and an empty log is that of many closenesses.

use reference::calls::Joins;
use reference::lines::{join, stages_from, Segment};
use reference::logs::{records, Logged, Record, RECORD};
use reference::test::verdict;

/// A line that is served, with its log.
#[derive(Clone, Copy)]
pub struct Line<'a> {
    pub histogram: &'a [u32],
    pub closeness: i32,
    pub logged: &'a Logged,
    /// In turn the one join at which its log is spoiled. Without it there are several.
    pub turn: Option<usize>,
}

/// A way of spoiling a log: its name, and the logs that it makes of one. It can make none of a log that is too short for it.
pub type Damage = (&'static str, fn(&Line) -> Vec<Vec<i64>>);

pub const DAMAGES: [Damage; 12] = [
    ("one more or less in a number", by_one),
    ("a number of any size", of_any_size),
    ("neither fall nor rise, or the other", other_kinds),
    ("a record dropped", dropped),
    ("a record more", one_more),
    ("numbers left over", left_over),
    ("cut off", cut_off),
    ("records swapped", swapped),
    ("of another closeness", of_other_closenesses),
    ("of another histogram", of_other_histograms),
    ("in the numbers of the first segments", first_numbered),
    ("another join than the next", astray),
];

impl Line<'_> {
    fn log(&self) -> Vec<i64> {
        self.logged.numbers()
    }

    fn counts(&self) -> Vec<u64> {
        self.histogram.iter().map(|&count| count.into()).collect()
    }

    /// The joins at which a log is spoiled: all of a short log, of a long one the first, the last and one in the middle; or
    /// the one whose turn it is.
    fn chosen(&self) -> Vec<usize> {
        let joins = self.logged.records.len();
        let mut chosen = match self.turn {
            Some(turn) => vec![turn % joins.max(1)],
            None => vec![
                0,
                1,
                joins / 2,
                joins.saturating_sub(2),
                joins.saturating_sub(1),
            ],
        };
        chosen.retain(|&join| join < joins);
        chosen.sort_unstable();
        chosen.dedup();
        chosen
    }

    /// So many of what takes long to find.
    fn some<T>(&self, mut all: Vec<T>, most: usize) -> Vec<T> {
        match (self.turn, all.len()) {
            (Some(turn), count) if count > 0 => vec![all.swap_remove(turn % count)],
            _ => {
                all.truncate(most);
                all
            }
        }
    }

    /// The places of the log that belong to those joins, or only those of one number of each.
    fn places(&self, number: Option<usize>) -> Vec<usize> {
        let in_record = |&place: &usize| number.is_none_or(|number| place % RECORD == number);
        let places = |join| RECORD * join..RECORD * (join + 1);
        let all = self.chosen().into_iter().flat_map(places);
        all.filter(in_record).collect()
    }

    /// Each of these places with each of the numbers that are made of its own.
    fn altered<const N: usize>(
        &self,
        places: &[usize],
        made: fn(i64) -> [i64; N],
    ) -> Vec<Vec<i64>> {
        let log = self.log();
        let mut others = Vec::new();
        for &place in places {
            for number in made(log[place]) {
                let mut other = log.clone();
                other[place] = number;
                others.push(other);
            }
        }
        others
    }
}

fn by_one(line: &Line) -> Vec<Vec<i64>> {
    line.altered(&line.places(None), |own| [own - 1, own + 1])
}

/// The least and the largest, and numbers that are the right one in 8, 16, 32 or 63 bits or without their sign.
fn of_any_size(line: &Line) -> Vec<Vec<i64>> {
    line.altered(&line.places(None), |own| {
        [
            i64::MIN,
            i64::MAX,
            own + (1 << 8),
            own + (1 << 16),
            own + (1 << 32),
            own - (1 << 32),
            own.wrapping_add(i64::MIN),
            -own,
            0,
        ]
    })
}

fn other_kinds(line: &Line) -> Vec<Vec<i64>> {
    line.altered(&line.places(Some(2)), |own| [1 - own, 2, -1, own + 2, !own])
}

fn dropped(line: &Line) -> Vec<Vec<i64>> {
    let mut others = Vec::new();
    for join in line.chosen() {
        let mut other = line.log();
        other.drain(RECORD * join..RECORD * (join + 1));
        others.push(other);
    }
    others
}

/// A record twice, one in front, zeros behind, and a join of the first two modes, which stay apart.
fn one_more(line: &Line) -> Vec<Vec<i64>> {
    let log = line.log();
    let mut others = vec![
        [&[0, 2, 0, -1], &log[..]].concat(),
        [&log[..], &[0; RECORD]].concat(),
    ];
    for join in line.chosen() {
        let (before, behind) = log.split_at(RECORD * (join + 1));
        others.push([before, &before[RECORD * join..], behind].concat());
    }
    let counts = line.counts();
    let modes = line.logged.stages.last();
    if let Some([first, second, ..]) = modes.map(Vec::as_slice) {
        let cost = join(&counts, line.closeness, &[*first, *second]).cost;
        others.push([&log[..], &[0, 2, 0, cost]].concat());
        others.push([&log[..], &[0, 2, 0, -1]].concat());
    }
    others
}

fn left_over(line: &Line) -> Vec<Vec<i64>> {
    let log = line.log();
    let mut others = Vec::new();
    for count in 1..RECORD {
        let zeros = vec![0; count];
        others.push([&log[..], &zeros].concat());
        others.push([&zeros, &log[..]].concat());
        others.push([&log[..], &log[log.len().saturating_sub(count)..]].concat());
    }
    others
}

/// By one number up to five, in the middle, and all of it.
fn cut_off(line: &Line) -> Vec<Vec<i64>> {
    let log = line.log();
    let half = line.logged.records.len() / 2 * RECORD;
    let mut lens: Vec<usize> = (1..=5)
        .filter_map(|short| log.len().checked_sub(short))
        .collect();
    lens.extend([0, half]);
    lens.into_iter().map(|len| log[..len].to_vec()).collect()
}

/// Neighbours, and the first with the last.
fn swapped(line: &Line) -> Vec<Vec<i64>> {
    let records = &line.logged.records;
    let mut pairs: Vec<(usize, usize)> = line
        .chosen()
        .windows(2)
        .map(|two| (two[0], two[1]))
        .collect();
    pairs.push((0, records.len().saturating_sub(1)));
    let swapped = |(left, right)| {
        let mut records = records.clone();
        records.swap(left, right);
        numbers(&records)
    };
    let pairs = pairs.into_iter().filter(|&(left, right)| left < right);
    pairs.map(swapped).collect()
}

fn numbers(records: &[Record]) -> Vec<i64> {
    records.iter().flat_map(Record::numbers).collect()
}

fn of_other_closenesses(line: &Line) -> Vec<Vec<i64>> {
    let others = line.some(vec![line.closeness - 1, line.closeness + 1], 2);
    let log = |closeness| Joins::of(line.histogram, closeness).line;
    let logs = others.into_iter().filter_map(log);
    logs.map(|other| other.numbers()).collect()
}

/// Mirrored, without its last bin, and with a count less in its highest bin.
fn of_other_histograms(line: &Line) -> Vec<Vec<i64>> {
    let mirrored: Vec<u32> = line.histogram.iter().rev().copied().collect();
    let shorter = line.histogram[..line.histogram.len() - 1].to_vec();
    let mut lower = line.histogram.to_vec();
    if let Some(highest) = lower.iter_mut().max() {
        *highest = highest.saturating_sub(1);
    }
    let log = |other: &Vec<u32>| Joins::of(other, line.closeness).line;
    let others = line.some(vec![mirrored, shorter, lower], 3);
    let logs = others.iter().filter_map(log);
    logs.map(|other| other.numbers()).collect()
}

/// The first segment of each run by its first number; and the length of each run in first segments as well.
fn first_numbered(line: &Line) -> Vec<Vec<i64>> {
    let mut by_first = line.logged.records.clone();
    for (record, first) in by_first.iter_mut().zip(line.logged.first_numbers()) {
        record.first = first;
    }
    let mut by_both = by_first.clone();
    let mut sizes = vec![1; line.logged.stages[0].len()];
    for (record, own) in by_both.iter_mut().zip(&line.logged.records) {
        let run = own.first..own.first + own.len;
        let size: usize = sizes.drain(run).sum();
        sizes.insert(own.first, size);
        record.len = size;
    }
    vec![numbers(&by_first), numbers(&by_both)]
}

/// The most joins that are tried in place of one.
const MOST_OTHERS: usize = 6;

/// The log goes another way at one join, with a run that can be joined too or by the dearer of the two ways, and from there
/// on as the method has it. All costs in it are right.
fn astray(line: &Line) -> Vec<Vec<i64>> {
    let (counts, closeness) = (line.counts(), line.closeness);
    let stages = &line.logged.stages;
    let mut others = Vec::new();
    for at in line.chosen() {
        let mut ways = joined_otherwise(&counts, closeness, &stages[at]);
        ways.retain(|left| *left != stages[at + 1]);
        for left in line.some(ways, MOST_OTHERS) {
            let behind = stages_from(&counts, closeness, left);
            let all = [&stages[..=at], &behind].concat();
            others.push(numbers(&records(&counts, closeness, &all)));
        }
    }
    others
}

/// The most segments of a run that is tried.
const LONGEST_OTHER: usize = 4;

/// What is left by each run of these segments and each way of joining it that costs less than 0.
fn joined_otherwise(counts: &[u64], closeness: i32, segments: &[Segment]) -> Vec<Vec<Segment>> {
    let mut all = Vec::new();
    for len in 2..=segments.len().min(LONGEST_OTHER) {
        for (first, run) in segments.windows(len).enumerate() {
            let (left, right) = (run[0], run[len - 1]);
            let rise = verdict(&counts[left.start..=right.peak], true, closeness).cost;
            let fall = verdict(&counts[left.peak..=right.end], false, closeness).cost;
            for (cost, peak) in [(fall, left.peak), (rise, right.peak)] {
                if cost < 0 {
                    let one = Segment {
                        start: left.start,
                        peak,
                        end: right.end,
                    };
                    all.push([&segments[..first], &[one], &segments[first + len..]].concat());
                }
            }
        }
    }
    all
}

/// One log of the kind whose turn it is at this place of a list, and the number of that kind.
pub fn in_turn(line: &Line, place: usize) -> Option<(usize, Vec<i64>)> {
    let kind = place % DAMAGES.len();
    let turn = place / DAMAGES.len();
    let line = Line {
        turn: Some(turn),
        ..*line
    };
    let mut logs = DAMAGES[kind].1(&line);
    match logs.len() {
        0 => None,
        count => Some((kind, logs.swap_remove(turn % count))),
    }
}

#[cfg(test)]
mod tests {
    use super::*;
    use crate::closenesses;

    /// Three joins: of two segments by the rise, of three by the fall, of two by the fall.
    const HISTOGRAM: [u32; 12] = [7, 1, 9, 0, 12, 1, 10, 0, 6, 0, 7, 2];
    const CLOSENESS: i32 = 1;

    fn with_line<T>(histogram: &[u32], closeness: i32, ask: impl Fn(&Line) -> T) -> T {
        let joins = Joins::of(histogram, closeness);
        let logged = joins.line.as_ref().expect("it is served");
        ask(&Line {
            histogram,
            closeness,
            logged,
            turn: None,
        })
    }

    #[test]
    fn each_kind_of_damage_is_refused() {
        with_line(&HISTOGRAM, CLOSENESS, |line| {
            for (name, damaged) in DAMAGES {
                let logs = damaged(line);
                let refused = logs
                    .iter()
                    .filter(|log| line.logged.replayed(log).is_none());
                assert!(refused.count() > 0, "{name}");
            }
        });
    }

    #[test]
    fn a_number_is_altered_at_every_place() {
        with_line(&HISTOGRAM, CLOSENESS, |line| {
            let log = line.log();
            for place in 0..log.len() {
                let only_there = |other: &&Vec<i64>| {
                    let differ = (0..log.len()).filter(|&p| other[p] != log[p]);
                    differ.eq([place])
                };
                assert_eq!(by_one(line).iter().filter(only_there).count(), 2);
                assert!(of_any_size(line).iter().filter(only_there).count() >= 7);
            }
        });
    }

    /// The run at bins 4 to 8 can be joined second too: the log has a run of another number there, with its own cost.
    #[test]
    fn a_log_that_goes_another_way_has_right_costs() {
        with_line(&[20, 0, 1, 0, 20, 0, 1, 0, 20], 0, |line| {
            let [first, second] = line.logged.records[..] else {
                panic!("it has two joins");
            };
            assert_eq!((first.first, second.first), (0, 1));
            let other = Record { first: 2, ..second };
            assert!(astray(line).contains(&numbers(&[other, first])));
        });
    }

    #[test]
    fn a_log_in_first_numbers() {
        with_line(&HISTOGRAM, CLOSENESS, |line| {
            let firsts =
                |log: &Vec<i64>| -> Vec<i64> { log.iter().step_by(RECORD).copied().collect() };
            let logs = first_numbered(line);
            assert_eq!(firsts(&line.log()), [0, 1, 1]);
            assert_eq!(firsts(&logs[0]), [0, 2, 2]);
            let lens: Vec<i64> = logs[1].iter().skip(1).step_by(RECORD).copied().collect();
            assert_eq!(lens, [2, 3, 4]);
        });
    }

    /// Every closeness of an empty log, and a line of one segment: no kind fails on them.
    #[test]
    fn empty_logs_can_be_spoiled_too() {
        for histogram in [&[7, 7, 7][..], &[0, 20, 0, 20, 0], &[3, 1]] {
            with_line(histogram, closenesses::in_turn(0), |line| {
                assert!(line.log().is_empty());
                let logs = DAMAGES.iter().flat_map(|(_, damaged)| damaged(line));
                let refused = logs.filter(|log| line.logged.replayed(log).is_none());
                assert!(refused.count() > 5);
            });
        }
    }
}
