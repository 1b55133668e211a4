//! The fit of a histogram and the verdict on it.

use crate::raw::{self, MOST_BINS};
use crate::Ground;
use core::fmt;
use core::ops::Deref;

/// Which way a fit goes.
#[derive(Clone, Copy, Debug, PartialEq, Eq, Hash)]
pub enum Direction {
    /// From left to right it never falls.
    Increasing,
    /// From left to right it never rises.
    Decreasing,
}

impl Direction {
    fn rising(self) -> bool {
        self == Direction::Increasing
    }
}

/// A block of a fit: neighbouring bins that share their mean, which is the fraction `sum / length`.
#[derive(Clone, Copy, Debug, Default, PartialEq, Eq, Hash)]
pub struct Block {
    /// The sum of its counts.
    pub sum: u32,
    /// How many bins it has.
    pub length: u32,
}

/// The isotonic fit of a histogram, a slice with a place for each bin: the block that the bin lies in. From block to
/// block the means differ, so equal means share a block.
#[derive(Clone, Copy, PartialEq, Eq)]
pub struct Fit {
    bins: usize,
    blocks: [Block; MOST_BINS],
}

impl Deref for Fit {
    type Target = [Block];

    fn deref(&self) -> &[Block] {
        &self.blocks[..self.bins]
    }
}

impl fmt::Debug for Fit {
    fn fmt(&self, f: &mut fmt::Formatter<'_>) -> fmt::Result {
        f.debug_tuple("Fit").field(&&self[..]).finish()
    }
}

/// The monotone histogram that is nearest to a histogram: of all monotone sequences of that direction it has the least
/// sum of squared differences. Grounds: [`Bins`](Ground::Bins), [`Sum`](Ground::Sum).
///
/// ```
/// # use kistrovu::{fit, Block, Direction, Ground};
/// let fit_of = |histogram: &[u32]| fit(histogram, Direction::Increasing);
/// // The means are 1, 5/2 and 5/2.
/// let one = Block { sum: 1, length: 1 };
/// let two = Block { sum: 5, length: 2 };
/// assert_eq!(fit_of(&[1, 3, 2])?[..], [one, two, two]);
///
/// assert_eq!(fit_of(&[5]), Err(Ground::Bins));
/// assert_eq!(fit_of(&[0; 257]), Err(Ground::Bins));
/// assert_eq!(fit_of(&[65_536, 1]), Err(Ground::Sum));
/// # Ok::<(), Ground>(())
/// ```
pub fn fit(histogram: &[u32], direction: Direction) -> Result<Fit, Ground> {
    // SAFETY: pointer and length are those of one slice, lent for the time of the call. The pointer of an empty slice is
    // not null.
    let answer =
        unsafe { raw::kistrovu_fit(histogram.as_ptr(), histogram.len(), direction.rising()) };
    read_fit(&answer, histogram.len())
}

fn read_fit(answer: &raw::FitAnswer, bins: usize) -> Result<Fit, Ground> {
    Ground::check(answer.number)?;
    let mut fit = Fit {
        bins: bins.min(MOST_BINS),
        blocks: [Block::default(); MOST_BINS],
    };
    let figures = answer.sums.iter().zip(&answer.lengths);
    for (block, (&sum, &length)) in fit.blocks.iter_mut().zip(figures).take(bins) {
        *block = Block { sum, length };
    }
    Ok(fit)
}

/// The outcome of the test whether a histogram can be taken for a monotone one.
#[derive(Clone, Copy, Debug, PartialEq, Eq, Hash)]
pub struct Verdict {
    /// By how much the histogram exceeds the bar of the test, in units of 1/67,108,864 of a bit; negative if it stays below
    /// the bar.
    pub cost: i64,
    /// Whether the histogram is not taken for a monotone one: its cost is 0 or more, and some step from a bin to the next
    /// goes against the direction. Without such a step it is never rejected, also where the cost is 0 or more.
    pub rejected: bool,
}

/// The verdict on a histogram, for one direction and closeness. Grounds: [`Bins`](Ground::Bins), [`Sum`](Ground::Sum),
/// [`Closeness`](Ground::Closeness).
///
/// ```
/// # use kistrovu::{verdict, Direction, Ground};
/// assert!(verdict(&[20, 0], Direction::Increasing, 0)?.rejected);
/// // A monotone histogram costs minus the bar: here minus log2(3), in units.
/// let falling = verdict(&[20, 0], Direction::Decreasing, 0)?;
/// assert_eq!((falling.cost, falling.rejected), (-106_365_032, false));
/// // At a negative closeness the bar may be below 0. Without a step against it, the histogram is still accepted.
/// let loose = |histogram| verdict(histogram, Direction::Increasing, -10);
/// let (rises, falls) = (loose(&[0, 1])?, loose(&[1, 0])?);
/// assert_eq!((rises.cost, rises.rejected), (564_723_608, false));
/// assert_eq!((falls.cost, falls.rejected), (631_832_472, true));
///
/// let rising = |histogram: &[u32], closeness| verdict(histogram, Direction::Increasing, closeness);
/// assert_eq!(rising(&[], 0), Err(Ground::Bins));
/// assert_eq!(rising(&[65_536, 1], 0), Err(Ground::Sum));
/// assert_eq!(rising(&[20, 0], 21), Err(Ground::Closeness));
/// assert_eq!(rising(&[20, 0], -11), Err(Ground::Closeness));
/// # Ok::<(), Ground>(())
/// ```
pub fn verdict(histogram: &[u32], direction: Direction, closeness: i32) -> Result<Verdict, Ground> {
    let (bins, len) = (histogram.as_ptr(), histogram.len());
    // SAFETY: as in `fit`.
    let answer = unsafe { raw::kistrovu_verdict(bins, len, direction.rising(), closeness) };
    read_verdict(answer)
}

fn read_verdict(answer: raw::VerdictAnswer) -> Result<Verdict, Ground> {
    Ground::check(answer.number)?;
    Ok(Verdict {
        cost: answer.verdict.cost,
        rejected: answer.verdict.rejected != 0,
    })
}

/// How the wrapper treats figures that the engine never hands back.
#[cfg(test)]
mod tests {
    use super::*;

    fn fitted(number: u32) -> raw::FitAnswer {
        raw::FitAnswer {
            number,
            sums: [7; MOST_BINS],
            lengths: [3; MOST_BINS],
        }
    }

    #[test]
    fn a_fit_has_a_place_for_each_bin_and_no_more_than_there_are() {
        for (bins, places) in [(2, 2), (256, 256), (257, 256), (usize::MAX, 256)] {
            let fit = read_fit(&fitted(0), bins).unwrap();
            assert_eq!(fit.len(), places);
            assert!(fit.iter().all(|b| *b == Block { sum: 7, length: 3 }));
            assert!(fit.blocks[places..].iter().all(|b| *b == Block::default()));
        }
    }

    #[test]
    fn a_number_that_is_not_listed_turns_the_call_down() {
        for number in [12, 1_000, u32::MAX] {
            assert_eq!(read_fit(&fitted(number), 2), Err(Ground::Unlisted));
            let verdict = raw::Verdict {
                cost: 5,
                rejected: 1,
            };
            let answer = raw::VerdictAnswer { number, verdict };
            assert_eq!(read_verdict(answer), Err(Ground::Unlisted));
        }
    }

    #[test]
    fn a_flag_is_any_byte_but_zero() {
        for (rejected, expected) in [(0, false), (1, true), (2, true), (255, true)] {
            let verdict = raw::Verdict { cost: -5, rejected };
            let answer = raw::VerdictAnswer { number: 0, verdict };
            let expected = Verdict {
                cost: -5,
                rejected: expected,
            };
            assert_eq!(read_verdict(answer), Ok(expected));
        }
    }
}
