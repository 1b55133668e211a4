//! The card of an image.

use crate::raw::{self, MOST_ENTRIES};
use crate::Ground;
#[cfg(feature = "alloc")]
use alloc::{vec, vec::Vec};
use core::fmt;
use core::ops::Deref;

/// Whether an entry of a card is a grey or a colour.
#[derive(Clone, Copy, Debug, PartialEq, Eq, Hash)]
#[repr(u8)]
pub enum Kind {
    /// Pixels of so little saturation that they have no hue; they differ only in intensity. 0 in the program's text.
    Grey = 0,
    /// Pixels that have a hue. 1 in the program's text.
    Colour = 1,
}

/// A grey or a colour of a card.
#[derive(Clone, Copy, Debug, PartialEq, Eq, Hash)]
pub struct Entry {
    /// Grey or colour.
    pub kind: Kind,
    /// The number of its hue mode; 0 for a grey.
    pub hue: u8,
    /// The number of its saturation mode; 0 for a grey.
    pub saturation: u8,
    /// The number of its intensity mode.
    pub intensity: u8,
    /// The mean red of its pixels, halves rounded up.
    pub red: u8,
    /// The mean green of its pixels, halves rounded up.
    pub green: u8,
    /// The mean blue of its pixels, halves rounded up.
    pub blue: u8,
    /// How many pixels bear its number as their label; never 0.
    pub count: u32,
}

/// The entries of a card, a slice of 1 to 1,000: greys in the order of their modes, then colours in that of hue, saturation
/// and intensity mode.
#[derive(Clone, Copy, PartialEq, Eq)]
pub struct Entries {
    len: usize,
    list: [Entry; MOST_ENTRIES],
}

impl Deref for Entries {
    type Target = [Entry];

    fn deref(&self) -> &[Entry] {
        &self.list[..self.len]
    }
}

impl fmt::Debug for Entries {
    fn fmt(&self, f: &mut fmt::Formatter<'_>) -> fmt::Result {
        f.debug_tuple("Entries").field(&&self[..]).finish()
    }
}

/// A card, and the labels of the image that it was made from.
#[cfg(feature = "alloc")]
#[derive(Clone, Debug, PartialEq, Eq)]
pub struct Card {
    /// The entries, 1 to 1,000: greys in the order of their modes, then colours in that of hue, saturation and intensity
    /// mode.
    pub entries: Vec<Entry>,
    /// For each pixel the number of its entry, from 0.
    pub labels: Vec<u16>,
}

/// The card of an image of three bytes (R, G, B) a pixel. The thread needs 1 MB of stack. Grounds:
/// [`Bytes`](Ground::Bytes), [`Pixels`](Ground::Pixels), [`Closeness`](Ground::Closeness),
/// [`Entries`](Ground::Entries).
///
/// ```
/// # use kistrovu::{card, Entry, Ground, Kind};
/// // Two reds that differ little, and a blue: one entry for both reds.
/// let threads = [200, 0, 0, 0, 0, 150, 203, 0, 0];
/// let made = card(&threads.repeat(10), 0)?;
/// let blue = Entry {
///     kind: Kind::Colour,
///     hue: 0,
///     saturation: 0,
///     intensity: 0,
///     red: 0,
///     green: 0,
///     blue: 150,
///     count: 10,
/// };
/// let red = Entry { hue: 1, red: 202, blue: 0, count: 20, ..blue };
/// assert_eq!(made.entries, [blue, red]);
/// assert_eq!(made.labels, [1, 0, 1].repeat(10));
/// // Black beside white is one grey at 0, and two greys where less evidence will do.
/// let piano = [0, 0, 0, 255, 255, 255];
/// assert_eq!(card(&piano, 0)?.entries.len(), 1);
/// assert_eq!(card(&piano, -10)?.entries.len(), 2);
///
/// assert_eq!(card(&[], 0), Err(Ground::Bytes));
/// assert_eq!(card(&[200, 0, 0, 0], 0), Err(Ground::Bytes));
/// assert_eq!(card(&[0; 3 * 65_537], 0), Err(Ground::Pixels));
/// assert_eq!(card(&[200, 0, 0], 21), Err(Ground::Closeness));
///
/// // A cube of 12 × 12 × 12 colours, 37 pixels of each or more, has more entries than a card may hold.
/// let levels = |place: u32| [place % 12, place / 12 % 12, place / 144 % 12].map(|level| 23 * level as u8);
/// let cube: Vec<u8> = (0..65_536).flat_map(levels).collect();
/// assert_eq!(card(&cube, 0), Err(Ground::Entries));
/// # Ok::<(), Ground>(())
/// ```
#[cfg(feature = "alloc")]
pub fn card(pixels: &[u8], closeness: i32) -> Result<Card, Ground> {
    // There is a label for each pixel, so `Labels` is never the ground. There are no more labels than a served call can
    // have: `Pixels` is tested earlier.
    let mut labels = vec![0; raw::MOST_PIXELS.min(pixels.len() / 3)];
    let entries = card_into(pixels, closeness, &mut labels)?.to_vec();
    Ok(Card { entries, labels })
}

/// Like [`card`], without a heap: the labels are written into a list with a place for each pixel. They stay as they were
/// if the call is turned down. The thread needs 1 MB of stack. Grounds: [`Bytes`](Ground::Bytes),
/// [`Pixels`](Ground::Pixels), [`Closeness`](Ground::Closeness), [`Labels`](Ground::Labels),
/// [`Entries`](Ground::Entries).
///
/// ```
/// # use kistrovu::{card_into, Ground};
/// let black_beside_red = [0, 0, 0, 255, 0, 0];
/// let mut labels = [99; 2];
/// let entries = card_into(&black_beside_red, 0, &mut labels)?;
/// assert_eq!((entries.len(), entries[1].red), (2, 255));
/// assert_eq!(labels, [0, 1]);
///
/// let mut labels = [99; 4];
/// assert_eq!(card_into(&[0; 4], 0, &mut labels), Err(Ground::Bytes));
/// assert_eq!(card_into(&[0; 3 * 65_537], 0, &mut labels), Err(Ground::Pixels));
/// assert_eq!(card_into(&black_beside_red, 21, &mut labels), Err(Ground::Closeness));
/// assert_eq!(card_into(&black_beside_red, 0, &mut labels), Err(Ground::Labels));
/// assert_eq!(labels, [99; 4]);
///
/// // As in the example of `card`.
/// # let levels = |place: u32| [place % 12, place / 12 % 12, place / 144 % 12].map(|level| 23 * level as u8);
/// let cube: Vec<u8> = (0..65_536).flat_map(levels).collect();
/// let mut labels = vec![99; 65_536];
/// assert_eq!(card_into(&cube, 0, &mut labels), Err(Ground::Entries));
/// assert_eq!(labels, [99; 65_536]);
/// # Ok::<(), Ground>(())
/// ```
pub fn card_into(pixels: &[u8], closeness: i32, labels: &mut [u16]) -> Result<Entries, Ground> {
    let (start, bytes) = (pixels.as_ptr(), pixels.len());
    let (list, places) = (labels.as_mut_ptr(), labels.len());
    // SAFETY: each pointer and its length are those of one slice, lent for the time of the call; the two slices do not
    // overlap, and the pointer of an empty slice is not null.
    let answer = unsafe { raw::kistrovu_card(start, bytes, closeness, list, places) };
    read(&answer)
}

fn read(answer: &raw::Card) -> Result<Entries, Ground> {
    Ground::check(answer.number)?;
    Ok(Entries {
        len: MOST_ENTRIES.min(answer.len as usize),
        list: answer.entries.map(read_entry),
    })
}

fn read_entry(entry: raw::Entry) -> Entry {
    Entry {
        kind: match entry.kind {
            0 => Kind::Grey,
            _ => Kind::Colour,
        },
        hue: entry.hue,
        saturation: entry.saturation,
        intensity: entry.intensity,
        red: entry.red,
        green: entry.green,
        blue: entry.blue,
        count: entry.count,
    }
}

/// How the wrapper treats figures that the engine never hands back.
#[cfg(test)]
mod tests {
    use super::*;

    const ENTRY: raw::Entry = raw::Entry {
        kind: 7,
        hue: 1,
        saturation: 2,
        intensity: 3,
        red: 4,
        green: 5,
        blue: 6,
        count: 8,
    };

    fn answer(number: u32, len: u32) -> raw::Card {
        raw::Card {
            number,
            len,
            entries: [ENTRY; MOST_ENTRIES],
        }
    }

    #[test]
    fn there_are_no_more_entries_than_places() {
        for (len, expected) in [
            (1, 1),
            (256, 256),
            (1_000, 1_000),
            (1_001, 1_000),
            (u32::MAX, 1_000),
        ] {
            assert_eq!(read(&answer(0, len)).unwrap().len(), expected);
        }
    }

    #[test]
    fn a_number_that_is_not_listed_turns_the_call_down() {
        for number in [12, 1_000, u32::MAX] {
            assert_eq!(read(&answer(number, 1)), Err(Ground::Unlisted));
        }
    }

    #[test]
    fn every_figure_comes_to_its_place_and_a_kind_that_is_not_known_is_a_colour() {
        let expected = Entry {
            kind: Kind::Colour,
            hue: 1,
            saturation: 2,
            intensity: 3,
            red: 4,
            green: 5,
            blue: 6,
            count: 8,
        };
        assert_eq!(read(&answer(0, 2)).unwrap()[..], [expected; 2]);
    }
}
