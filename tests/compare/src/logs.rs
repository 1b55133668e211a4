//! Logs of joins, engine and reference side by side: written, replayed, and replayed when they are spoiled.

use crate::comparison::{listed, same, unwritten, Difference, Failure, Tally, BEHIND};
use crate::log_damage::{self, Line, DAMAGES};
use crate::round_joins::enough;
use engine::IntoRaw;
use reference::calls::{Joins, ANOTHER_LOG};
use reference::logs::{Logged, RECORD};

/// A histogram, a closeness, how many numbers are lent for each of the logs that are written, and how many places for the
/// separators of a replay.
pub struct LogCase {
    pub histogram: Vec<u32>,
    pub closeness: i32,
    pub numbers: Vec<usize>,
    pub places: usize,
}

/// Which spoiled logs of a line are replayed.
#[derive(Clone, Copy)]
pub enum Spoiled {
    /// Some, of the next kinds in turn.
    Some,
    /// All of every kind.
    All,
}

/// How many kinds are taken where not all are.
const KINDS_IN_TURN: usize = 4;

/// Lines by their logs: how many were found, or how many there have to be.
#[derive(Default)]
pub struct Logs {
    /// Of several joins.
    pub several: u64,
    /// With a run of three segments or more.
    pub long: u64,
    /// With a join by the rise.
    pub risen: u64,
    /// In which a segment has another number than at first.
    pub renumbered: u64,
    /// Spoiled logs that were turned down.
    pub refused: u64,
    /// The same of the kind that has the fewest.
    pub refused_of_each: u64,
}

impl Logs {
    /// In the order of the fields.
    pub const fn of(numbers: [u64; 6]) -> Self {
        let [several, long, risen, renumbered, refused, refused_of_each] = numbers;
        Logs {
            several,
            long,
            risen,
            renumbered,
            refused,
            refused_of_each,
        }
    }
}

#[derive(Default)]
pub struct LogTally {
    /// Those that are served.
    pub lines: u64,
    pub joins: u64,
    pub written: u64,
    pub replayed: u64,
    pub found: Logs,
    /// By kind.
    refused: [u64; DAMAGES.len()],
}

/// A case at its place in the group.
pub fn compare(
    case: &LogCase,
    place: usize,
    spoiled: Spoiled,
    tally: &mut Tally,
) -> Result<(), Difference> {
    let joins = Joins::of(&case.histogram, case.closeness);
    for &numbers in &case.numbers {
        written(case, &joins, numbers, tally)?;
    }
    let Some(logged) = &joins.line else {
        return any_logs(case, &joins, tally);
    };
    tally.logs.count(logged);
    let own = logged.numbers();
    replayed(case, &joins, &own, tally)?;
    as_the_line_call(case, &own)?;
    let line = Line {
        histogram: &case.histogram,
        closeness: case.closeness,
        logged,
        turn: None,
    };
    for (kind, log) in spoiled.logs(&line, place) {
        let number = replayed(case, &joins, &log, tally)?;
        tally.logs.refuse(kind, number);
    }
    Ok(())
}

impl Spoiled {
    /// With the place of their kind.
    fn logs(self, line: &Line, place: usize) -> Vec<(usize, Vec<i64>)> {
        match self {
            Spoiled::Some => {
                let first = place * KINDS_IN_TURN;
                let places = first..first + KINDS_IN_TURN;
                let logs = places.map(|place| log_damage::in_turn(line, place));
                logs.flatten().collect()
            }
            Spoiled::All => {
                let kinds = DAMAGES.iter().enumerate();
                let logs = kinds.map(|(kind, (_, damaged))| (kind, damaged(line)));
                logs.flat_map(|(kind, logs)| logs.into_iter().map(move |log| (kind, log)))
                    .collect()
            }
        }
    }
}

/// The log as the call writes it, with numbers of our own in all places, also behind what is lent.
fn written(
    case: &LogCase,
    joins: &Joins,
    numbers: usize,
    tally: &mut Tally,
) -> Result<(), Difference> {
    let mut lent = case.histogram.clone();
    let mut log = unwritten_log(numbers + BEHIND);
    let mut expected_log = log.clone();
    let answer = engine::join_log(&mut lent, case.closeness, &mut log[..numbers]);
    let expected = joins.log(&mut expected_log[..numbers]);
    tally.logs.written += 1;
    tally.count(expected.number);
    let input = || format!("log of {numbers} numbers, {}", case.told());
    same(input, (expected.into_raw(), expected_log), (answer, log))?;
    same(
        || format!("histogram after {}", input()),
        &case.histogram,
        &lent,
    )
}

/// The number of the answer.
fn replayed(
    case: &LogCase,
    joins: &Joins,
    log: &[i64],
    tally: &mut Tally,
) -> Result<u32, Difference> {
    let (mut lent, mut lent_log) = (case.histogram.clone(), log.to_vec());
    let mut list = unwritten(case.places + BEHIND);
    let mut expected_list = list.clone();
    let answer = engine::replay(
        &mut lent,
        case.closeness,
        &mut lent_log,
        &mut list[..case.places],
    );
    let expected = joins.replay(log, &mut expected_list[..case.places]);
    tally.logs.replayed += 1;
    tally.count(expected.number);
    let input = || format!("replay of {log:?}, {} places, {}", case.places, case.told());
    let number = expected.number;
    same(input, (expected.into_raw(), expected_list), (answer, list))?;
    same(
        || format!("histogram and log after {}", input()),
        (&case.histogram[..], log),
        (&lent[..], &lent_log[..]),
    )?;
    Ok(number)
}

/// What the line's own log leaves is what the engine's call for the modes of a line gives, in numbers and list.
fn as_the_line_call(case: &LogCase, own: &[i64]) -> Result<(), Difference> {
    let mut histogram = case.histogram.clone();
    let mut list = unwritten(case.places);
    let mut replayed_list = list.clone();
    let modes = engine::line_modes(&mut histogram, case.closeness, &mut list);
    let mut log = own.to_vec();
    let replayed = engine::replay(&mut histogram, case.closeness, &mut log, &mut replayed_list);
    let input = || format!("line call and replay of the own log, {}", case.told());
    same(input, (modes, list), (replayed, replayed_list))
}

/// Of a line that is turned down whatever its log.
fn any_logs(case: &LogCase, joins: &Joins, tally: &mut Tally) -> Result<(), Difference> {
    for log in [&[][..], &[0, 2, 0, -1], &[i64::MIN, i64::MAX, 2]] {
        replayed(case, joins, log, tally)?;
    }
    Ok(())
}

impl LogCase {
    fn told(&self) -> String {
        format!(
            "closeness {}, of {}",
            self.closeness,
            listed(&self.histogram)
        )
    }
}

/// Numbers that no log has, each another one, none of them small in 32 bits.
fn unwritten_log(numbers: usize) -> Vec<i64> {
    let number = |place: usize| i64::MIN / 3 + 1_000_003 * place as i64;
    (0..numbers).map(number).collect()
}

impl LogTally {
    fn count(&mut self, line: &Logged) {
        let records = &line.records;
        let firsts = records.iter().map(|record| record.first);
        let found = &mut self.found;
        self.lines += 1;
        self.joins += records.len() as u64;
        found.several += u64::from(records.len() > 1);
        found.long += u64::from(records.iter().any(|record| record.len > 2));
        found.risen += u64::from(records.iter().any(|record| record.rise));
        found.renumbered += u64::from(!firsts.eq(line.first_numbers()));
    }

    fn refuse(&mut self, kind: usize, number: u32) {
        let refused = u64::from(number == ANOTHER_LOG);
        self.refused[kind] += refused;
        self.found.refused += refused;
        self.found.refused_of_each = self.refused.into_iter().min().unwrap_or(0);
    }

    pub fn told(&self) -> String {
        let told = |(what, found)| format!("{found} {what}");
        let found = self.found.named().map(told).join(", ");
        format!(
            "{} logs written, {} replayed; {} lines with {} joins: {found}",
            self.written, self.replayed, self.lines, self.joins
        )
    }

    /// The least numbers are in thousandths of the lines.
    pub fn check(&self, least: &Logs) -> Result<(), Failure> {
        let found = self.found.named().into_iter();
        let numbers: Vec<(&str, u64, u64)> = found
            .zip(least.named())
            .map(|((what, found), (_, least))| (what, least, found))
            .collect();
        enough("lines", self.lines, &numbers)
    }
}

impl Logs {
    fn named(&self) -> [(&'static str, u64); 6] {
        [
            ("of several joins", self.several),
            ("with runs of 3 or more", self.long),
            ("joined by the rise", self.risen),
            ("with segments numbered anew", self.renumbered),
            ("spoiled logs turned down", self.refused),
            ("of each kind at least", self.refused_of_each),
        ]
    }
}

/// The numbers that are lent for the logs of a line of so many bins: as few as do, and others in turn, fewer and more.
pub fn lengths(bins: usize, place: usize) -> Vec<usize> {
    let fewest = RECORD * bins;
    let others = [
        fewest.saturating_sub(1),
        fewest + 1,
        fewest + 2,
        fewest + 3,
        bins,
        fewest + 4,
        fewest.saturating_sub(RECORD),
        fewest + 1000,
    ];
    vec![fewest, others[place % others.len()]]
}

#[cfg(test)]
mod tests {
    use super::*;
    use crate::round_joins::FEWEST_JUDGED;
    use reference::logs::logged;

    /// Their logs have three joins, one of three segments; two joins, the second by another number; one; and none.
    #[test]
    fn lines_are_counted_by_their_logs() {
        let mut tally = LogTally::default();
        for (counts, closeness) in [
            (&[7, 1, 9, 0, 12, 1, 10, 0, 6, 0, 7, 2][..], 1),
            (&[20, 0, 1, 0, 20, 0, 1, 0, 20], 0),
            (&[8, 6, 15], 0),
            (&[7, 7], 0),
        ] {
            tally.count(&logged(counts, closeness));
        }
        let found = tally.found;
        assert_eq!((tally.lines, tally.joins), (4, 6));
        assert_eq!((found.several, found.long), (2, 1));
        assert_eq!((found.risen, found.renumbered), (2, 2));
    }

    #[test]
    fn refused_logs_are_counted_by_kind() {
        let mut tally = LogTally::default();
        for kind in 0..DAMAGES.len() {
            assert_eq!(tally.found.refused_of_each, 0);
            tally.refuse(kind, 10);
            tally.refuse(kind, 0);
            tally.refuse(kind, 20);
        }
        assert_eq!(tally.found.refused, DAMAGES.len() as u64);
        assert_eq!(tally.found.refused_of_each, 1);
    }

    #[test]
    fn each_number_can_be_too_small() {
        let least = [500, 20, 100, 30, 2_000, 10];
        let check = |lines, found| {
            let tally = LogTally {
                lines,
                found: Logs::of(found),
                ..LogTally::default()
            };
            tally.check(&Logs::of(least))
        };
        assert!(check(1_000, least).is_ok());
        for place in 0..least.len() {
            let mut too_few = least;
            too_few[place] -= 1;
            assert!(matches!(check(1_000, too_few), Err(Failure::TooFew(_))));
        }
        assert!(check(FEWEST_JUDGED - 1, [0; 6]).is_ok());
    }
}
