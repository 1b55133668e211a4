//! What the card program prints.

use crate::raw::{self, MOST_PRINTED};
use crate::Ground;
use core::fmt;

/// A text to print: a card, or the line of a ground.
#[derive(Clone, Copy, PartialEq, Eq)]
pub struct Printed {
    answer: raw::Printed,
}

impl Printed {
    /// Its bytes: lines that end with a line feed.
    pub fn bytes(&self) -> &[u8] {
        &self.answer.bytes[..MOST_PRINTED.min(self.answer.len as usize)]
    }
}

impl fmt::Debug for Printed {
    fn fmt(&self, f: &mut fmt::Formatter<'_>) -> fmt::Result {
        f.debug_tuple("Printed")
            .field(&format_args!("\"{}\"", self.bytes().escape_ascii()))
            .finish()
    }
}

/// The card of a swatch, both as text, at closeness 0. The thread needs 1 MB of stack. Grounds:
/// [`Header`](Ground::Header), [`Size`](Ground::Size), [`Lines`](Ground::Lines), [`Entries`](Ground::Entries).
///
/// A line of a swatch has 12 columns and a line feed: first the width and the height, 6 columns each, then for each
/// pixel R, G and B, 4 columns each. The lines of a card have fields of 6 columns: entries, pixels and closeness; then for
/// each entry its kind, the numbers of its hue, saturation and intensity mode, mean R, G, B, and its count.
///
/// ```
/// # use kistrovu::{print_card, Ground};
/// let printed = print_card(b"     2     1\n   0   0   0\n 255   0   0\n")?;
/// let card = "     2     2     0
///      0     0     0     0     0     0     0     1
///      1     0     0     0   255     0     0     1
/// ";
/// assert_eq!(printed.bytes(), card.as_bytes());
///
/// let ground = |text: &str| print_card(text.as_bytes()).unwrap_err();
/// assert_eq!(ground(""), Ground::Header);
/// assert_eq!(ground("    02     1\n"), Ground::Header); // a leading zero
/// assert_eq!(ground("     0     5\n"), Ground::Size);
/// assert_eq!(ground("     1     1\n 256   0   0\n"), Ground::Lines);
///
/// // A cube of 12 × 12 × 12 colours, 9 pixels of each or more, has more entries than a card may hold.
/// let line = |place| format!("{:4}{:4}{:4}\n", place % 12 * 23, place / 12 % 12 * 23, place / 144 % 12 * 23);
/// let cube: String = (0..16_384).map(line).collect();
/// let text = format!("{:6}{:6}\n{cube}", 128, 128);
/// assert_eq!(ground(&text), Ground::Entries);
/// # Ok::<(), Ground>(())
/// ```
pub fn print_card(text: &[u8]) -> Result<Printed, Ground> {
    // SAFETY: pointer and length are those of one slice, lent for the time of the call. The pointer of an empty slice is
    // not null.
    let answer = unsafe { raw::kistrovu_print_card(text.as_ptr(), text.len()) };
    read(answer)
}

/// The line that the card program prints for a swatch that is turned down: the number of the ground in 6 columns, and a
/// line feed. Every number has a line; if it has more than six digits, the line has the last six.
///
/// ```
/// # use kistrovu::{print_card, print_ground};
/// let ground = print_card(b"").unwrap_err();
/// assert_eq!(print_ground(ground.number()).bytes(), b"     1\n");
/// assert_eq!(print_ground(11).bytes(), b"    11\n");
/// assert_eq!(print_ground(7_000_089).bytes(), b"000089\n");
/// ```
pub fn print_ground(number: u32) -> Printed {
    // SAFETY: the call takes and hands back plain numbers.
    let answer = unsafe { raw::kistrovu_print_ground(number) };
    Printed { answer }
}

fn read(answer: raw::Printed) -> Result<Printed, Ground> {
    Ground::check(answer.number)?;
    Ok(Printed { answer })
}

/// How the wrapper treats figures that the engine never hands back.
#[cfg(test)]
mod tests {
    use super::*;
    use std::format;

    fn answer(number: u32, len: u32) -> raw::Printed {
        raw::Printed {
            number,
            len,
            bytes: [b'x'; MOST_PRINTED],
        }
    }

    #[test]
    fn no_more_is_printed_than_there_is_room_for() {
        for (len, expected) in [
            (7, 7),
            (49_019, 49_019),
            (49_020, 49_019),
            (u32::MAX, 49_019),
        ] {
            let printed = read(answer(0, len)).unwrap();
            assert_eq!(printed.bytes().len(), expected);
        }
    }

    #[test]
    fn a_number_that_is_not_listed_is_a_ground() {
        assert_eq!(read(answer(12, 7)), Err(Ground::Unlisted));
    }

    #[test]
    fn what_is_printed_can_be_read_in_a_message() {
        let message = format!("{:?}", print_ground(3));
        assert_eq!(message, r#"Printed("     3\n")"#);
    }
}
