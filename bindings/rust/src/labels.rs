//! Labels of one byte, as they were up to version 5, read into labels of 16 bits.

use crate::raw;
use crate::Ground;
#[cfg(feature = "alloc")]
use alloc::{vec, vec::Vec};

/// Labels of one byte each, as cards had them up to version 5 and as they may have been stored, widened to labels of 16
/// bits: each number unchanged, in the same place. Any byte is a label, and a list may have any length. The new list is
/// made as long as the old one, so the library always serves the call.
///
/// ```
/// # use kistrovu::{widen_labels, Ground};
/// assert_eq!(widen_labels(&[0, 1, 1, 254, 255])?, [0, 1, 1, 254, 255]);
/// assert_eq!(widen_labels(&[])?, []);
/// # Ok::<(), Ground>(())
/// ```
///
/// A cloth that had a card in version 5, of up to 255 entries, has the labels that it had then:
///
/// ```
/// # use kistrovu::{card, widen_labels, Ground};
/// let stored: [u8; 2] = [0, 1];
/// let black_beside_red = [0, 0, 0, 255, 0, 0];
/// assert_eq!(card(&black_beside_red, 0)?.labels, widen_labels(&stored)?);
/// # Ok::<(), Ground>(())
/// ```
#[cfg(feature = "alloc")]
pub fn widen_labels(narrow: &[u8]) -> Result<Vec<u16>, Ground> {
    let mut labels = vec![0; narrow.len()];
    widen_labels_into(narrow, &mut labels)?;
    Ok(labels)
}

/// Like [`widen_labels`], without a heap: the labels are written into a list of the same length. They stay as they were if
/// the call is turned down. Grounds: [`Labels`](Ground::Labels).
///
/// ```
/// # use kistrovu::{widen_labels_into, Ground};
/// let mut labels = [999; 3];
/// widen_labels_into(&[0, 254, 1], &mut labels)?;
/// assert_eq!(labels, [0, 254, 1]);
///
/// let mut labels = [999; 3];
/// assert_eq!(widen_labels_into(&[0, 254], &mut labels), Err(Ground::Labels));
/// assert_eq!(widen_labels_into(&[0, 254, 1, 1], &mut labels), Err(Ground::Labels));
/// assert_eq!(labels, [999; 3]);
/// # Ok::<(), Ground>(())
/// ```
pub fn widen_labels_into(narrow: &[u8], labels: &mut [u16]) -> Result<(), Ground> {
    let (start, count) = (narrow.as_ptr(), narrow.len());
    let (list, places) = (labels.as_mut_ptr(), labels.len());
    // SAFETY: each pointer and its length are those of one slice, lent for the time of the call; the two slices do not
    // overlap, and the pointer of an empty slice is not null.
    Ground::check(unsafe { raw::kistrovu_widen_labels(start, count, list, places) })
}
