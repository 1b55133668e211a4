//! The modes of a line and of a ring of bins.

use crate::raw::{self, ModesAnswer};
use crate::Ground;
#[cfg(feature = "alloc")]
use alloc::vec::Vec;

type ModesCall = unsafe extern "C" fn(*const u32, usize, i32, *mut u32, usize) -> ModesAnswer;

/// The separators of a line of bins, rising: the bins at which its modes begin, and its last bin. Each mode runs from a
/// separator up to the bin before the next, and the last one takes the last bin. Grounds: [`Bins`](Ground::Bins),
/// [`Sum`](Ground::Sum), [`Closeness`](Ground::Closeness).
///
/// ```
/// # use kistrovu::{line_modes, Ground};
/// // Two humps, and their modes: bins 0 and 1, bins 2 to 4.
/// assert_eq!(line_modes(&[0, 20, 0, 20, 0], 0)?, [0, 2, 4]);
/// assert_eq!(line_modes(&[0, 20, 0, 20, 0], 13)?, [0, 2, 4]);
/// // At this closeness 40 counts are no longer evidence enough: one mode.
/// assert_eq!(line_modes(&[0, 20, 0, 20, 0], 14)?, [0, 4]);
/// // Two counts are not enough at 0. Where less evidence will do, they are two modes.
/// assert_eq!(line_modes(&[0, 1, 0, 1, 0], 0)?, [0, 4]);
/// assert_eq!(line_modes(&[0, 1, 0, 1, 0], -4)?, [0, 2, 4]);
///
/// assert_eq!(line_modes(&[20], 0), Err(Ground::Bins));
/// assert_eq!(line_modes(&[65_536, 1], 0), Err(Ground::Sum));
/// assert_eq!(line_modes(&[0, 20], 21), Err(Ground::Closeness));
/// # Ok::<(), Ground>(())
/// ```
#[cfg(feature = "alloc")]
pub fn line_modes(histogram: &[u32], closeness: i32) -> Result<Vec<u32>, Ground> {
    listed(raw::kistrovu_line_modes, histogram, closeness)
}

/// The separators of a ring of bins, from the lowest bin number up: the bins at which its modes begin. Each mode runs from
/// a separator round to the bin before the next. The ring is opened at its lowest bin, the first of several; the modes of
/// the line from there round to that bin again are then joined all round the ring, past the opening too, so the opening
/// need not be a separator. Modes are numbered from the opening on, not as they are listed: mode 0 begins at the opening
/// if that is a separator, otherwise at the next one round the ring. A card numbers its hue modes so; it is made without
/// the list. If one bin is lower than all others, it makes no difference which bin is called bin 0: in a ring turned by k
/// bins every separator is k bins further on, counted round, and so are the bins of each mode, which keeps its number. If
/// several bins share the lowest count, it can make a difference.
/// Grounds: [`Bins`](Ground::Bins), [`Sum`](Ground::Sum), [`Closeness`](Ground::Closeness).
///
/// ```
/// # use kistrovu::{ring_modes, Ground};
/// // Opened at bin 3, where mode 0 begins; mode 1 begins at bin 5, and mode 2 at bin 1.
/// assert_eq!(ring_modes(&[9, 1, 9, 0, 9, 0], 0)?, [1, 3, 5]);
/// // Opened at bin 1, which is no separator: bins 3 and 4 are mode 0, and bins 5 to 8 and 0 to 2 mode 1.
/// assert_eq!(ring_modes(&[94, 78, 144, 78, 143, 78, 78, 118, 78], 1)?, [3, 5]);
/// // Opened at bin 0, which lies inside the one mode that is left: from bin 2 round to bin 1.
/// assert_eq!(ring_modes(&[0, 4, 0, 0, 4], 0)?, [2]);
/// // One bin is lowest. The second ring is the first, turned by one bin, and so are its separators.
/// assert_eq!(ring_modes(&[50, 9, 0, 50, 3, 60, 2], 0)?, [2, 4, 6]);
/// assert_eq!(ring_modes(&[2, 50, 9, 0, 50, 3, 60], 0)?, [0, 3, 5]);
/// // Two are lowest: turned by two bins, the separators would be 2 and 4.
/// assert_eq!(ring_modes(&[1, 9, 0, 0, 9], 0)?, [0, 2]);
/// assert_eq!(ring_modes(&[0, 9, 1, 9, 0], 0)?, [0, 2]);
///
/// assert_eq!(ring_modes(&[20], 0), Err(Ground::Bins));
/// assert_eq!(ring_modes(&[65_536, 1], 0), Err(Ground::Sum));
/// assert_eq!(ring_modes(&[0, 20], 21), Err(Ground::Closeness));
/// # Ok::<(), Ground>(())
/// ```
#[cfg(feature = "alloc")]
pub fn ring_modes(histogram: &[u32], closeness: i32) -> Result<Vec<u32>, Ground> {
    listed(raw::kistrovu_ring_modes, histogram, closeness)
}

/// Like [`line_modes`], without a heap: the separators are written into the first places of the list, and their number
/// is handed back. Every other place stays as it was; if the call is turned down, all places do. Grounds:
/// [`Bins`](Ground::Bins), [`Sum`](Ground::Sum), [`Closeness`](Ground::Closeness), [`Separators`](Ground::Separators).
///
/// ```
/// # use kistrovu::{line_modes_into, Ground};
/// let humps = [0, 20, 0, 20, 0];
/// let mut list = [99; 6];
/// assert_eq!(line_modes_into(&humps, 0, &mut list)?, 3);
/// assert_eq!(list, [0, 2, 4, 99, 99, 99]);
///
/// assert_eq!(line_modes_into(&[20], 0, &mut list), Err(Ground::Bins));
/// assert_eq!(line_modes_into(&[65_536, 1], 0, &mut list), Err(Ground::Sum));
/// assert_eq!(line_modes_into(&humps, 21, &mut list), Err(Ground::Closeness));
/// assert_eq!(line_modes_into(&humps, 0, &mut list[..4]), Err(Ground::Separators));
/// assert_eq!(list, [0, 2, 4, 99, 99, 99]);
/// # Ok::<(), Ground>(())
/// ```
pub fn line_modes_into(
    histogram: &[u32],
    closeness: i32,
    separators: &mut [u32],
) -> Result<usize, Ground> {
    modes(raw::kistrovu_line_modes, histogram, closeness, separators)
}

/// Like [`ring_modes`], without a heap: the separators are written into the first places of the list, and their number
/// is handed back. Every other place stays as it was; if the call is turned down, all places do. Grounds:
/// [`Bins`](Ground::Bins), [`Sum`](Ground::Sum), [`Closeness`](Ground::Closeness), [`Separators`](Ground::Separators).
///
/// ```
/// # use kistrovu::{ring_modes_into, Ground};
/// let humps = [20, 0, 20, 0];
/// let mut list = [99; 6];
/// assert_eq!(ring_modes_into(&humps, 0, &mut list)?, 2);
/// assert_eq!(list, [1, 3, 99, 99, 99, 99]);
///
/// assert_eq!(ring_modes_into(&[20], 0, &mut list), Err(Ground::Bins));
/// assert_eq!(ring_modes_into(&[65_536, 1], 0, &mut list), Err(Ground::Sum));
/// assert_eq!(ring_modes_into(&humps, 21, &mut list), Err(Ground::Closeness));
/// assert_eq!(ring_modes_into(&humps, 0, &mut list[..3]), Err(Ground::Separators));
/// assert_eq!(list, [1, 3, 99, 99, 99, 99]);
/// # Ok::<(), Ground>(())
/// ```
pub fn ring_modes_into(
    histogram: &[u32],
    closeness: i32,
    separators: &mut [u32],
) -> Result<usize, Ground> {
    modes(raw::kistrovu_ring_modes, histogram, closeness, separators)
}

/// The list has room for every histogram that is served, so `Separators` is never the ground.
#[cfg(feature = "alloc")]
fn listed(call: ModesCall, histogram: &[u32], closeness: i32) -> Result<Vec<u32>, Ground> {
    let mut list = [0; raw::MOST_BINS];
    let count = modes(call, histogram, closeness, &mut list)?;
    Ok(list[..count].to_vec())
}

fn modes(
    call: ModesCall,
    histogram: &[u32],
    closeness: i32,
    separators: &mut [u32],
) -> Result<usize, Ground> {
    let (bins, len) = (histogram.as_ptr(), histogram.len());
    let (list, places) = (separators.as_mut_ptr(), separators.len());
    // SAFETY: each pointer and its length are those of one slice, lent for the time of the call; the two slices do not
    // overlap, and the pointer of an empty slice is not null.
    let answer = unsafe { call(bins, len, closeness, list, places) };
    read(answer, places)
}

/// How many separators stand in the first of so many places.
pub(crate) fn read(answer: ModesAnswer, places: usize) -> Result<usize, Ground> {
    Ground::check(answer.number)?;
    Ok(places.min(answer.separators as usize))
}

/// How the wrapper treats figures that the engine never hands back.
#[cfg(test)]
mod tests {
    use super::*;

    #[test]
    fn there_are_no_more_separators_than_places() {
        for (separators, expected) in [(2, 2), (5, 5), (6, 5), (u32::MAX, 5)] {
            let answer = ModesAnswer {
                number: 0,
                separators,
            };
            assert_eq!(read(answer, 5), Ok(expected));
        }
    }

    #[test]
    fn a_number_that_is_not_listed_turns_the_call_down() {
        for number in [12, 1_000, u32::MAX] {
            let answer = ModesAnswer {
                number,
                separators: 2,
            };
            assert_eq!(read(answer, 5), Err(Ground::Unlisted));
        }
    }
}
