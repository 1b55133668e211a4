//! The log of a line's joins, and its replay. The log is read off the stages of the line: what the segments were just
//! before a join and what they are after it says which of them were joined and how. A replay follows nothing here: the
//! line's own log is the only one that can be followed to its end, so the two are compared as wholes.

use crate::lines::{stages, Segment};
use crate::test::verdict;

/// The numbers of a record.
pub const RECORD: usize = 4;

/// A join: the run by the number of its first segment just before the join and by how many segments it has, whether it is
/// joined by the rise, and what that costs.
#[derive(Clone, Copy, Debug, PartialEq, Eq)]
pub struct Record {
    pub first: usize,
    pub len: usize,
    pub rise: bool,
    pub cost: i64,
}

impl Record {
    /// As a log has it.
    pub fn numbers(&self) -> [i64; RECORD] {
        [
            self.first as i64,
            self.len as i64,
            i64::from(self.rise),
            self.cost,
        ]
    }
}

/// A line with nothing left to join: its stages, the record of each join in turn, and the separators as a call lists them.
#[derive(Clone, Debug, PartialEq, Eq)]
pub struct Logged {
    pub stages: Vec<Vec<Segment>>,
    pub records: Vec<Record>,
    pub separators: Vec<usize>,
}

impl Logged {
    /// The log as numbers.
    pub fn numbers(&self) -> Vec<i64> {
        let records = self.records.iter();
        records.flat_map(|record| record.numbers()).collect()
    }

    /// The separators, if this is the line's log from its first number to its last; else none.
    pub fn replayed(&self, log: &[i64]) -> Option<&[usize]> {
        (log == self.numbers()).then_some(&self.separators)
    }

    /// For each join the number that the first segment of its run had at first: what a log would say whose segments kept
    /// those numbers. For whoever asks if it shows that they do not.
    pub fn first_numbers(&self) -> Vec<usize> {
        let mut numbers: Vec<usize> = (0..self.stages[0].len()).collect();
        let mut firsts = Vec::new();
        for record in &self.records {
            firsts.push(numbers[record.first]);
            numbers.drain(record.first + 1..record.first + record.len);
        }
        firsts
    }
}

/// The log of a line of two bins or more.
pub fn logged(counts: &[u64], closeness: i32) -> Logged {
    let stages = stages(counts, closeness);
    let modes = &stages[stages.len() - 1];
    let starts = modes.iter().map(|mode| mode.start);
    Logged {
        records: records(counts, closeness, &stages),
        separators: starts.chain([counts.len() - 1]).collect(),
        stages,
    }
}

/// The record of each join, from the stages before and after it.
pub fn records(counts: &[u64], closeness: i32, stages: &[Vec<Segment>]) -> Vec<Record> {
    let joins = stages.windows(2);
    joins
        .map(|join| record(counts, closeness, &join[0], &join[1]))
        .collect()
}

/// The run begins at the first segment that is another one after the join, and what is missing then are all of its
/// segments but one. No two segments have one peak, so the peak that is left says by which way they were joined.
fn record(counts: &[u64], closeness: i32, before: &[Segment], after: &[Segment]) -> Record {
    let same = before.iter().zip(after).take_while(|(a, b)| a == b);
    let first = same.count();
    let len = before.len() - after.len() + 1;
    let run = &before[first..first + len];
    let (start, end) = (run[0].start, run[len - 1].end);
    let (first_peak, last_peak) = (run[0].peak, run[len - 1].peak);
    let rise = after[first].peak == last_peak;
    let stretch = if rise {
        &counts[start..=last_peak]
    } else {
        &counts[first_peak..=end]
    };
    Record {
        first,
        len,
        rise,
        cost: verdict(stretch, rise, closeness).cost,
    }
}
