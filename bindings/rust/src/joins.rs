//! The log of a line's joins, and the modes that a log leads to.

use crate::modes;
use crate::raw::{self, JoinRecord, LogAnswer, RECORD_NUMBERS};
use crate::{Direction, Ground};
#[cfg(feature = "alloc")]
use alloc::{vec, vec::Vec};

/// What the numbers of a record stand for. A record that comes from elsewhere may hold anything.
impl JoinRecord {
    /// How the segments are joined: by the rise if an increasing fit says so, by the fall if a decreasing one does. None
    /// for a number that is neither 0 nor 1, which no log of the engine has.
    ///
    /// ```
    /// # use kistrovu::{Direction, JoinRecord};
    /// let join = JoinRecord { first: 0, length: 2, rise: 0, cost: -167_225_428 };
    /// assert_eq!(join.direction(), Some(Direction::Decreasing));
    /// assert_eq!(JoinRecord { rise: 1, ..join }.direction(), Some(Direction::Increasing));
    /// assert_eq!(JoinRecord { rise: 2, ..join }.direction(), None);
    /// ```
    pub fn direction(&self) -> Option<Direction> {
        match self.rise {
            0 => Some(Direction::Decreasing),
            1 => Some(Direction::Increasing),
            _ => None,
        }
    }

    /// The cost in bits.
    ///
    /// ```
    /// # use kistrovu::JoinRecord;
    /// let join = JoinRecord { first: 0, length: 2, rise: 0, cost: -100_663_296 };
    /// assert_eq!(join.bits(), -1.5);
    /// ```
    pub fn bits(&self) -> f64 {
        self.cost as f64 / UNITS as f64
    }
}

/// The units of a bit, in which costs are counted.
const UNITS: i64 = 1 << 26;

/// The four numbers in the order in which a log has them.
///
/// ```
/// # use kistrovu::JoinRecord;
/// let join = JoinRecord::from([3, 2, 1, -5]);
/// assert_eq!((join.first, join.length, join.rise, join.cost), (3, 2, 1, -5));
/// assert_eq!(<[i64; 4]>::from(join), [3, 2, 1, -5]);
/// ```
impl From<[i64; RECORD_NUMBERS]> for JoinRecord {
    fn from([first, length, rise, cost]: [i64; RECORD_NUMBERS]) -> Self {
        JoinRecord {
            first,
            length,
            rise,
            cost,
        }
    }
}

impl From<JoinRecord> for [i64; RECORD_NUMBERS] {
    fn from(join: JoinRecord) -> Self {
        [join.first, join.length, join.rise, join.cost]
    }
}

/// The log of a line of bins: how it comes to its modes. The line begins as segments, a segment for each hump, and runs of
/// neighbours are joined until no run can be. The log has a record for each join, in the order in which they are made;
/// the segments are numbered from 0 as they stand just before the join. A ring has no log. Grounds:
/// [`Bins`](Ground::Bins), [`Sum`](Ground::Sum), [`Closeness`](Ground::Closeness).
///
/// ```
/// # use kistrovu::{join_log, Ground, JoinRecord};
/// // Two humps of one count each are one mode: both segments are joined, by the fall.
/// let join = JoinRecord { first: 0, length: 2, rise: 0, cost: -167_225_428 };
/// assert_eq!(join_log(&[0, 1, 0, 1, 0], 0)?, [join]);
/// // With 20 counts each they are two modes, and nothing is joined.
/// assert_eq!(join_log(&[0, 20, 0, 20, 0], 0)?, []);
///
/// assert_eq!(join_log(&[20], 0), Err(Ground::Bins));
/// assert_eq!(join_log(&[65_536, 1], 0), Err(Ground::Sum));
/// assert_eq!(join_log(&[0, 20], 21), Err(Ground::Closeness));
/// # Ok::<(), Ground>(())
/// ```
///
/// A log can be read from the first separators on: bin 0, the last bin, and the first bin of every dip between humps.
/// Each join drops the separators inside its run, and those that are left at the end are the line's.
///
/// ```
/// # use kistrovu::{join_log, line_modes, Ground};
/// // Each small hump is joined to the large one beside it: segments 0 and 1 by the rise; then the last two, which are now
/// // numbers 1 and 2, by the fall.
/// let line = [0, 3, 2, 30, 0, 30, 2, 3, 0];
/// let mut separators = vec![0, 2, 4, 6, 8];
/// for join in join_log(&line, 0)? {
///     let (first, end) = (join.first as usize, (join.first + join.length) as usize);
///     separators.drain(first + 1..end);
/// }
/// assert_eq!(separators, [0, 4, 8]);
/// assert_eq!(separators, line_modes(&line, 0)?);
/// # Ok::<(), Ground>(())
/// ```
#[cfg(feature = "alloc")]
pub fn join_log(histogram: &[u32], closeness: i32) -> Result<Vec<JoinRecord>, Ground> {
    // There is a place for each bin, so `Separators` is never the ground. There are no more places than a served call can
    // need: `Bins` is tested earlier.
    let places = raw::MOST_BINS.min(histogram.len());
    let mut log = vec![JoinRecord::default(); places];
    let joins = join_log_into(histogram, closeness, &mut log)?;
    log.truncate(joins);
    Ok(log)
}

/// Like [`join_log`], without a heap: the records are written into the first places of the log, and their number is handed
/// back. Every other place stays as it was; if the call is turned down, all places do. The log has a place for each bin,
/// or more. Grounds: [`Bins`](Ground::Bins), [`Sum`](Ground::Sum), [`Closeness`](Ground::Closeness),
/// [`Separators`](Ground::Separators).
///
/// ```
/// # use kistrovu::{join_log_into, Ground, JoinRecord};
/// let humps = [0, 1, 0, 1, 0];
/// let unused = JoinRecord::from([99; 4]);
/// let mut log = [unused; 6];
/// assert_eq!(join_log_into(&humps, 0, &mut log)?, 1);
/// assert_eq!((log[0].first, log[0].length), (0, 2));
/// assert_eq!(log[1..], [unused; 5]);
///
/// let mut log = [unused; 6];
/// assert_eq!(join_log_into(&[20], 0, &mut log), Err(Ground::Bins));
/// assert_eq!(join_log_into(&[65_536, 1], 0, &mut log), Err(Ground::Sum));
/// assert_eq!(join_log_into(&humps, 21, &mut log), Err(Ground::Closeness));
/// assert_eq!(join_log_into(&humps, 0, &mut log[..4]), Err(Ground::Separators));
/// assert_eq!(log, [unused; 6]);
/// # Ok::<(), Ground>(())
/// ```
pub fn join_log_into(
    histogram: &[u32],
    closeness: i32,
    log: &mut [JoinRecord],
) -> Result<usize, Ground> {
    let (bins, len) = (histogram.as_ptr(), histogram.len());
    let (list, numbers) = (log.as_mut_ptr().cast::<i64>(), numbers_of(log));
    // SAFETY: histogram and length are those of one slice, lent for the time of the call, and so are the log and its
    // numbers: a record is four numbers in a row without a gap, and any four numbers are a record. The two slices do not
    // overlap, and the pointer of an empty slice is not null.
    let answer = unsafe { raw::kistrovu_join_log(bins, len, closeness, list, numbers) };
    read(answer, log.len())
}

/// The separators of a line of bins, as [`line_modes`](crate::line_modes) lists them, by a log of its joins. The log may
/// come from elsewhere and hold anything. It is followed record by record, and only the one that [`join_log`] gives for
/// this line at this closeness leads to the modes; any other is turned down. Grounds: [`Bins`](Ground::Bins),
/// [`Sum`](Ground::Sum), [`Closeness`](Ground::Closeness), [`Log`](Ground::Log).
///
/// ```
/// # use kistrovu::{join_log, line_modes, replay, Ground, JoinRecord};
/// let line = [0, 3, 2, 30, 0, 30, 2, 3, 0];
/// let log = join_log(&line, 0)?;
/// assert_eq!(replay(&line, 0, &log)?, line_modes(&line, 0)?);
///
/// // A record too few, one too many, or another cost.
/// assert_eq!(replay(&line, 0, &log[1..]), Err(Ground::Log));
/// assert_eq!(replay(&line, 0, &[&log[..], &log[..1]].concat()), Err(Ground::Log));
/// let cheaper = JoinRecord { cost: log[0].cost - 1, ..log[0] };
/// assert_eq!(replay(&line, 0, &[&[cheaper], &log[1..]].concat()), Err(Ground::Log));
/// // The log of another closeness.
/// assert_eq!(replay(&line, 1, &log), Err(Ground::Log));
///
/// assert_eq!(replay(&[20], 0, &log), Err(Ground::Bins));
/// assert_eq!(replay(&[65_536, 1], 0, &log), Err(Ground::Sum));
/// assert_eq!(replay(&line, 21, &log), Err(Ground::Closeness));
/// # Ok::<(), Ground>(())
/// ```
#[cfg(feature = "alloc")]
pub fn replay(histogram: &[u32], closeness: i32, log: &[JoinRecord]) -> Result<Vec<u32>, Ground> {
    // The list has room for every histogram that is served, so `Separators` is never the ground.
    let mut list = [0; raw::MOST_BINS];
    let count = replay_into(histogram, closeness, log, &mut list)?;
    Ok(list[..count].to_vec())
}

/// Like [`replay`], without a heap: the separators are written into the first places of the list, and their number is
/// handed back. Every other place stays as it was; if the call is turned down, all places do. Grounds:
/// [`Bins`](Ground::Bins), [`Sum`](Ground::Sum), [`Closeness`](Ground::Closeness), [`Separators`](Ground::Separators),
/// [`Log`](Ground::Log).
///
/// ```
/// # use kistrovu::{join_log_into, replay_into, Ground, JoinRecord};
/// let humps = [0, 1, 0, 1, 0];
/// let mut log = [JoinRecord::default(); 5];
/// let joins = join_log_into(&humps, 0, &mut log)?;
/// let log = &log[..joins];
/// let mut list = [99; 6];
/// assert_eq!(replay_into(&humps, 0, log, &mut list)?, 2);
/// assert_eq!(list, [0, 4, 99, 99, 99, 99]);
///
/// assert_eq!(replay_into(&[20], 0, log, &mut list), Err(Ground::Bins));
/// assert_eq!(replay_into(&[65_536, 1], 0, log, &mut list), Err(Ground::Sum));
/// assert_eq!(replay_into(&humps, 21, log, &mut list), Err(Ground::Closeness));
/// assert_eq!(replay_into(&humps, 0, log, &mut list[..4]), Err(Ground::Separators));
/// assert_eq!(replay_into(&humps, 0, &[], &mut list), Err(Ground::Log));
/// assert_eq!(list, [0, 4, 99, 99, 99, 99]);
/// # Ok::<(), Ground>(())
/// ```
pub fn replay_into(
    histogram: &[u32],
    closeness: i32,
    log: &[JoinRecord],
    separators: &mut [u32],
) -> Result<usize, Ground> {
    let (bins, len) = (histogram.as_ptr(), histogram.len());
    let (read, numbers) = (log.as_ptr().cast::<i64>(), numbers_of(log));
    let (list, places) = (separators.as_mut_ptr(), separators.len());
    // SAFETY: as in `join_log_into`. The log is only read, and the list, which is written, overlaps neither slice.
    let answer = unsafe { raw::kistrovu_replay(bins, len, closeness, read, numbers, list, places) };
    modes::read(answer, places)
}

/// The length of a log as the calls take it, which counts numbers. It does not overflow: a slice has at most `isize::MAX`
/// bytes, and a number has eight.
fn numbers_of(log: &[JoinRecord]) -> usize {
    RECORD_NUMBERS * log.len()
}

fn read(answer: LogAnswer, places: usize) -> Result<usize, Ground> {
    Ground::check(answer.number)?;
    Ok(places.min(answer.joins as usize))
}

/// How the wrapper treats figures that the engine never hands back, and how a log crosses.
#[cfg(test)]
mod tests {
    use super::*;

    #[test]
    fn there_are_no_more_joins_than_places() {
        for (joins, expected) in [(0, 0), (5, 5), (6, 5), (u32::MAX, 5)] {
            let answer = LogAnswer { number: 0, joins };
            assert_eq!(read(answer, 5), Ok(expected));
        }
    }

    #[test]
    fn a_number_that_is_not_listed_turns_the_call_down() {
        for number in [12, 19, 1_000, u32::MAX] {
            let answer = LogAnswer { number, joins: 2 };
            assert_eq!(read(answer, 5), Err(Ground::Unlisted));
        }
    }

    #[test]
    fn a_log_is_its_numbers_in_a_row() {
        let log = [[1, 2, 3, 4], [5, 6, 7, 8]].map(JoinRecord::from);
        let first = log.as_ptr().cast::<i64>();
        // SAFETY: the cast that is tried, read within the log.
        let numbers = unsafe { core::slice::from_raw_parts(first, numbers_of(&log)) };
        assert_eq!(numbers, [1, 2, 3, 4, 5, 6, 7, 8]);
        assert_eq!(numbers_of(&[]), 0);
    }
}
