//! Texts of swatches that are read and turned down, and cards that are printed.

use reference::cards::Entry;
use reference::swatches::*;

const BLACK_BESIDE_RED: &[u8] = b"     2     1\n   0   0   0\n 255   0   0\n";

#[test]
fn the_swatch_that_are_given() {
    assert_eq!(read(BLACK_BESIDE_RED), Ok(vec![[0, 0, 0], [255, 0, 0]]));
    assert_eq!(
        written(2, 1, &[[0, 0, 0], [255, 0, 0]]),
        BLACK_BESIDE_RED.to_vec()
    );
}

/// A header, and this many black pixels.
fn black(header: &str, pixels: usize) -> Vec<u8> {
    let lines = "   0   0   0\n".repeat(pixels);
    format!("{header}\n{lines}").into_bytes()
}

fn ground(text: &[u8]) -> u32 {
    read(text).err().unwrap_or(0)
}

#[test]
fn the_header_is_two_fields() {
    for (header, number) in [
        ("     1     1", 0),
        ("", NO_HEADER),
        ("     1", NO_HEADER),
        ("     1    1", NO_HEADER),
        ("     1     1 ", NO_HEADER),
        ("     1     1\r", NO_HEADER),
        ("     1    1\r", NO_HEADER),
        ("1     1     ", NO_HEADER),
        ("    01     1", NO_HEADER),
        ("     1    01", NO_HEADER),
        ("           1", NO_HEADER),
        ("     1      ", NO_HEADER),
        ("            ", NO_HEADER),
        ("    -1     1", NO_HEADER),
        ("   1   1   1", NO_HEADER),
        ("     1     x", NO_HEADER),
    ] {
        assert_eq!(ground(&black(header, 1)), number, "{header:?}");
    }
    assert_eq!(ground(b""), NO_HEADER);
    assert_eq!(ground(b"\n"), NO_HEADER);
    assert_eq!(ground(b"     1     1"), NO_HEADER);
}

/// The header line alone decides on 1, and the size alone on 2, whatever follows.
#[test]
fn the_first_ground_counts() {
    assert_eq!(ground(b"     1    1 \n  1"), NO_HEADER);
    assert_eq!(ground(b"     0     1\n  1"), NO_SIZE);
    assert_eq!(ground(b"     0     0\n"), NO_SIZE);
    assert_eq!(ground(b"   129   128\nx"), NO_SIZE);
    assert_eq!(ground(b"     1     1\nx"), NO_PIXELS);
}

#[test]
fn sizes_are_1_to_16_384() {
    for (header, number) in [
        ("     0     1", NO_SIZE),
        ("     1     0", NO_SIZE),
        ("     0     0", NO_SIZE),
        ("     1 16385", NO_SIZE),
        (" 16385     1", NO_SIZE),
        ("   128   129", NO_SIZE),
        ("999999999999", NO_SIZE),
        // Each of these is 0 if the product is kept in 32 bits only.
        (" 65536 65536", NO_SIZE),
        ("131072 32768", NO_SIZE),
        ("     2     1", NO_PIXELS),
    ] {
        assert_eq!(ground(&black(header, 1)), number, "{header:?}");
    }
    assert_eq!(ground(&black(" 16385     1", 16_385)), NO_SIZE);
    for (header, pixels) in [
        ("   128   128", 16_384),
        ("     1 16384", 16_384),
        (" 16384     1", 16_384),
        ("   127   129", 16_383),
    ] {
        assert_eq!(read(&black(header, pixels)), Ok(vec![[0; 3]; pixels]));
        assert_eq!(ground(&black(header, pixels - 1)), NO_PIXELS);
        assert_eq!(ground(&black(header, pixels + 1)), NO_PIXELS);
    }
}

#[test]
fn lines_are_neither_missing_nor_left_over() {
    for pixels in 0..6 {
        let number = if pixels == 4 { 0 } else { NO_PIXELS };
        assert_eq!(ground(&black("     2     2", pixels)), number);
    }
    for rest in ["\n", " ", "   0", "   0   0   0", "\0", "\r\n"] {
        let text = [BLACK_BESIDE_RED, rest.as_bytes()].concat();
        assert_eq!(ground(&text), NO_PIXELS, "{rest:?}");
    }
}

#[test]
fn every_line_ends_with_a_line_feed() {
    for len in 0..BLACK_BESIDE_RED.len() {
        let number = if len < 13 { NO_HEADER } else { NO_PIXELS };
        assert_eq!(ground(&BLACK_BESIDE_RED[..len]), number, "{len} bytes");
    }
    let text = String::from_utf8_lossy(BLACK_BESIDE_RED).replace('\n', "\r\n");
    assert_eq!(ground(text.as_bytes()), NO_HEADER);
    let text = b"     2     1\n   0   0   0\r\n 255   0   0\n";
    assert_eq!(ground(text), NO_PIXELS);
}

#[test]
fn a_pixel_is_three_fields_of_0_to_255() {
    for (line, number) in [
        ("   0   0   0", 0),
        (" 255 255 255", 0),
        (" 256   0   0", NO_PIXELS),
        ("   0 256   0", NO_PIXELS),
        ("   0   0 256", NO_PIXELS),
        ("   0   09999", NO_PIXELS),
        ("            ", NO_PIXELS),
        ("   0       0", NO_PIXELS),
        ("   0   0    ", NO_PIXELS),
        ("   0  00   0", NO_PIXELS),
        ("  01   0   0", NO_PIXELS),
        ("   0 012   0", NO_PIXELS),
        ("0   0   0   ", NO_PIXELS),
        ("     1     1", NO_PIXELS),
        ("   0   0", NO_PIXELS),
        ("   0   0   00", NO_PIXELS),
        ("   0   0  0", NO_PIXELS),
        ("", NO_PIXELS),
        ("   0   0  -0", NO_PIXELS),
    ] {
        let text = format!("     1     1\n{line}\n");
        assert_eq!(ground(text.as_bytes()), number, "{line:?}");
    }
}

#[test]
fn a_card_is_printed_in_6_columns() {
    let red = Entry {
        kind: 1,
        hue: 2,
        saturation: 3,
        intensity: 4,
        red: 255,
        green: 0,
        blue: 10,
        count: 16_384,
    };
    assert_eq!(
        printed_card(&[red], 16_384, 0),
        "     1 16384     0\n     1     2     3     4   255     0    10 16384\n"
    );
    assert_eq!(printed_card(&[], 7, -10), "     0     7   -10\n");
    assert_eq!(printed_number(11), "    11\n");
    assert_eq!(printed_number(3), "     3\n");
}
