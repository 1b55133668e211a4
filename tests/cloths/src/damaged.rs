//! The stored swatches whose texts are turned down, by ground.

use crate::full_cards;
use crate::stored::Made;
use crate::swatch::Swatch;

const BLACK: &str = "   0   0   0\n";
const TWO_PIXELS: &str = "   0   0   0\n 255   0   0\n";

pub fn swatches() -> Vec<Made> {
    [headers(), sizes(), pixels(), long()].concat()
}

fn made(name: &'static str, number: u32, text: impl Into<Vec<u8>>) -> Made {
    Made {
        name,
        number,
        text: text.into(),
    }
}

/// Ground 1. Two good pixel lines follow, where nothing else is said.
fn headers() -> Vec<Made> {
    let headers = [
        ("header-of-11-characters", "     2    1\n"),
        ("header-of-13-characters", "      2     1\n"),
        ("header-with-a-space-behind", "     2     1 \n"),
        ("header-with-a-carriage-return", "     2     1\r\n"),
        ("header-ending-in-a-carriage-return", "     2    1\r\n"),
        ("header-left-justified", "2     1     \n"),
        ("header-leading-zero", "     2    01\n"),
        ("header-all-zeros", "000002000001\n"),
        ("header-width-only", "     2      \n"),
        ("header-height-only", "           1\n"),
        ("header-of-spaces", "            \n"),
        ("header-empty", "\n"),
        ("header-minus", "     2    -1\n"),
        ("header-plus", "     2    +1\n"),
        ("header-point", "     2   1.0\n"),
        ("header-letter", "     2     l\n"),
        ("header-tab", "\t    2     1\n"),
        ("header-nul", "     2    \x001\n"),
        ("header-two-numbers-in-a-field", "   1 2     1\n"),
        ("header-of-three-fields", "   2   1   1\n"),
        ("header-on-two-lines", "     2\n     1\n"),
        ("header-missing", ""),
    ];
    let mut texts: Vec<Made> = headers
        .iter()
        .map(|(name, header)| made(name, 1, format!("{header}{TWO_PIXELS}")))
        .collect();
    texts.push(made("nothing", 1, ""));
    texts.push(made("header-without-line-feed", 1, "     2     1"));
    texts.push(made(
        "everything-on-one-line",
        1,
        format!("     2     1\n{TWO_PIXELS}").replace('\n', ""),
    ));
    texts.push(made(
        "carriage-returns-throughout",
        1,
        format!("     2     1\n{TWO_PIXELS}").replace('\n', "\r\n"),
    ));
    texts.push(made("header-before-size-and-pixels", 1, "     0    0 \nx"));
    texts
}

/// Ground 2, with as many good pixel lines as a wrong product would ask for.
fn sizes() -> Vec<Made> {
    let sizes = [
        ("width-0", "     0     2\n", 0),
        ("height-0", "     2     0\n", 0),
        ("size-0-with-pixels", "     0     2\n", 2),
        ("size-16385", " 16385     1\n", 0),
        ("size-128-by-129", "   128   129\n", 1),
        ("size-999999-by-999999", "999999999999\n", 1),
        // These two are 0 and 9 if the product is kept in 32 bits only, the last two 0 and 1 in 16 bits.
        ("size-2-to-the-32nd", " 65536 65536\n", 0),
        ("size-2-to-the-32nd-and-9", "  9629446045\n", 9),
        ("size-2-to-the-16th", "   256   256\n", 0),
        ("size-2-to-the-16th-and-1", " 65537     1\n", 1),
    ];
    let mut texts: Vec<Made> = sizes
        .iter()
        .map(|(name, header, pixels)| made(name, 2, format!("{header}{}", BLACK.repeat(*pixels))))
        .collect();
    texts.push(made("size-before-pixels", 2, "     0     1\nx"));
    texts
}

/// Ground 3, behind a header of two pixels.
fn pixels() -> Vec<Made> {
    let lines = [
        ("pixels-missing", ""),
        ("pixel-missing", BLACK),
        (
            "pixel-left-over",
            "   0   0   0\n 255   0   0\n   0   0   0\n",
        ),
        ("line-feed-left-over", "   0   0   0\n 255   0   0\n\n"),
        ("byte-left-over", "   0   0   0\n 255   0   0\n "),
        (
            "line-without-line-feed-left-over",
            "   0   0   0\n 255   0   0\n   0   0   0",
        ),
        ("last-line-feed-missing", "   0   0   0\n 255   0   0"),
        ("last-byte-missing", "   0   0   0\n 255   0   "),
        ("pixel-256", "   0   0   0\n 256   0   0\n"),
        ("pixel-green-256", "   0   0   0\n   0 256   0\n"),
        ("pixel-blue-256", "   0   0   0\n   0   0 256\n"),
        ("pixel-512", "   0   0 512\n   0   0   0\n"),
        ("pixel-9999", "9999   0   0\n   0   0   0\n"),
        ("pixel-00", "  00   0   0\n 255   0   0\n"),
        ("pixel-leading-zero", "   0   0   0\n0255   0   0\n"),
        (
            "pixel-with-a-field-of-spaces",
            "   0       0\n 255   0   0\n",
        ),
        ("pixel-of-spaces", "            \n 255   0   0\n"),
        ("pixel-left-justified", "0   0   0   \n 255   0   0\n"),
        ("pixel-of-two-fields", "     0     0\n 255   0   0\n"),
        ("pixel-of-11-characters", "   0   0  0\n 255   0   0\n"),
        ("pixel-of-13-characters", "   0   0    0\n 255   0   0\n"),
        ("pixel-of-8-characters", "   0   0\n 255   0   0\n"),
        ("pixel-carriage-return", "   0   0   0\r\n 255   0   0\n"),
        ("pixel-minus-0", "   0   0  -0\n 255   0   0\n"),
        ("pixel-plus", "   0   0   0\n+255   0   0\n"),
        ("pixel-hexadecimal", "   0   0   0\n  ff   0   0\n"),
        ("pixel-tab", "   0   0   0\n 255\t  0   0\n"),
        ("pixel-nul", "   0   0   0\n 255   0   \0\n"),
        ("pixel-colon", "   0   0   0\n 255   0   :\n"),
        ("pixel-slash", "   0   0   0\n 255   0   /\n"),
        (
            "pixel-two-numbers-in-a-field",
            "   0 1 2   0\n 255   0   0\n",
        ),
        ("pixel-on-two-lines", "   0\n  0   0\n 255   0   0\n"),
        ("pixels-on-one-line", "   0   0   0 255   0   0\n"),
        ("empty-line-between", "   0   0   0\n\n 255   0   0\n"),
        ("header-twice", "     2     1\n   0   0   0\n 255   0   0\n"),
    ];
    let mut texts: Vec<Made> = lines
        .iter()
        .map(|(name, lines)| made(name, 3, format!("     2     1\n{lines}")))
        .collect();
    texts.push(made(
        "pixel-byte-255",
        3,
        b"     1     1\n   0   0   \xff\n",
    ));
    texts.push(made(
        "pixel-no-break-space",
        3,
        b"     1     1\n  \xa00   0   0\n",
    ));
    texts.push(made("size-16384-without-pixels", 3, " 16384     1\n"));
    texts
}

/// Ground 3 again: texts as long as the longest swatch; with more entries than a card had with labels of one byte; and with
/// more than a card may hold, where it comes before ground 11.
fn long() -> Vec<Made> {
    let header = "   128   128\n";
    let without_last_byte = |entries: usize| {
        let mut text = Swatch::row(full_cards::pixels(entries, 10)).text();
        text.pop();
        text
    };
    vec![
        made(
            "16384-pixels-one-byte-too-long",
            3,
            format!("{header}{}\n", BLACK.repeat(16_384)),
        ),
        made(
            "16384-pixels-one-byte-too-short",
            3,
            format!("{header}{}", BLACK.repeat(16_384).trim_end()),
        ),
        made("256-entries-line-feed-missing", 3, without_last_byte(256)),
        made(
            "1001-entries-line-feed-missing",
            3,
            without_last_byte(1_001),
        ),
    ]
}
