//! The card program's texts: a swatch that is read, a card that is printed.

use crate::cards::{Entry, Pixel};
use std::fmt::Display;

/// The most pixels of a swatch.
pub const MOST_SWATCH_PIXELS: u64 = 16_384;

/// The grounds on which a text is turned down, by number.
pub const NO_HEADER: u32 = 1;
pub const NO_SIZE: u32 = 2;
pub const NO_PIXELS: u32 = 3;

/// Characters of a line, without its line feed.
const LINE: usize = 12;
const HEADER_COLUMNS: usize = 6;
const PIXEL_COLUMNS: usize = 4;
const PRINTED_COLUMNS: usize = 6;

/// The pixels of a swatch, row by row, or the number of the first ground that holds.
pub fn read(text: &[u8]) -> Result<Vec<Pixel>, u32> {
    // Each line with its line feed; what follows the last line feed is a line without one.
    let mut lines = text.split_inclusive(|&byte| byte == b'\n');
    let header = fields(lines.next().unwrap_or(b""), HEADER_COLUMNS).ok_or(NO_HEADER)?;
    let size = header[0] * header[1];
    if !(1..=MOST_SWATCH_PIXELS).contains(&size) {
        return Err(NO_SIZE);
    }
    let pixels: Option<Vec<Pixel>> = lines.map(pixel).collect();
    pixels
        .filter(|pixels| pixels.len() as u64 == size)
        .ok_or(NO_PIXELS)
}

fn pixel(line: &[u8]) -> Option<Pixel> {
    let values = fields(line, PIXEL_COLUMNS)?;
    let bytes: Option<Vec<u8>> = values.iter().map(|&v| u8::try_from(v).ok()).collect();
    bytes?.try_into().ok()
}

/// The fields of a line, all of this many columns; none where one of them, or the line, is not as it must be.
fn fields(line: &[u8], columns: usize) -> Option<Vec<u64>> {
    let line = line.strip_suffix(b"\n")?;
    if line.len() != LINE {
        return None;
    }
    line.chunks(columns).map(field).collect()
}

/// The number that, printed in this many columns, gives exactly this text.
fn field(text: &[u8]) -> Option<u64> {
    let text = std::str::from_utf8(text).ok()?;
    // Read without a sign, which no field of a swatch has.
    let number: u64 = text.trim_start().parse().ok()?;
    (printed_field(number, text.len()) == text).then_some(number)
}

/// The text of a swatch.
pub fn written(width: usize, height: usize, pixels: &[Pixel]) -> Vec<u8> {
    let mut text = printed_line(&[width as i64, height as i64], HEADER_COLUMNS);
    for pixel in pixels {
        text += &printed_line(&pixel.map(i64::from), PIXEL_COLUMNS);
    }
    text.into_bytes()
}

/// What is printed for a card.
pub fn printed_card(entries: &[Entry], pixels: usize, closeness: i32) -> String {
    let head = [entries.len() as i64, pixels as i64, i64::from(closeness)];
    let mut text = printed_line(&head, PRINTED_COLUMNS);
    for entry in entries {
        let Entry {
            kind,
            hue,
            saturation,
            intensity,
            red,
            green,
            blue,
            count,
        } = *entry;
        let bytes = [kind, hue, saturation, intensity, red, green, blue].map(i64::from);
        let figures = [bytes.as_slice(), &[i64::from(count)]].concat();
        text += &printed_line(&figures, PRINTED_COLUMNS);
    }
    text
}

/// What is printed for a swatch that is turned down: of a number that is too long for its columns the last digits.
pub fn printed_number(number: u32) -> String {
    let line = printed_line(&[i64::from(number)], PRINTED_COLUMNS);
    line[line.len() - PRINTED_COLUMNS - 1..].to_string()
}

fn printed_line(figures: &[i64], columns: usize) -> String {
    let fields = figures
        .iter()
        .map(|&figure| printed_field(figure, columns))
        .collect::<String>();
    fields + "\n"
}

fn printed_field(figure: impl Display, columns: usize) -> String {
    format!("{figure:>columns$}")
}

#[cfg(test)]
mod tests {
    use super::*;

    #[test]
    fn fields_are_right_justified_without_leading_zeros() {
        for (text, number) in [
            ("   0", Some(0)),
            ("   7", Some(7)),
            ("  10", Some(10)),
            ("9999", Some(9999)),
            ("    ", None),
            ("7   ", None),
            (" 7  ", None),
            ("  07", None),
            ("  00", None),
            ("0000", None),
            ("1 22", None),
            ("  +7", None),
            ("  -7", None),
            (" 7.0", None),
            ("\t  7", None),
            ("  \u{a0}", None),
            ("   a", None),
            ("   :", None),
            ("   /", None),
            ("   \0", None),
        ] {
            assert_eq!(field(text.as_bytes()), number, "{text:?}");
        }
        assert_eq!(field(b"   \xff"), None);
    }

    #[test]
    fn every_other_byte_is_no_digit() {
        for byte in 0..=255u8 {
            let number = byte.is_ascii_digit().then(|| u64::from(byte - b'0'));
            assert_eq!(field(&[b' ', b' ', b' ', byte]), number);
            let number = match byte {
                b' ' => Some(5),
                b'1'..=b'9' => Some(10 * u64::from(byte - b'0') + 5),
                _ => None,
            };
            assert_eq!(field(&[b' ', b' ', byte, b'5']), number);
        }
    }
}
