//! Texts for the call behind the card program: short ones here, and those that are stored with their cards.

use super::Case;
use crate::calls::Call;
use cloths::full_cards;
use cloths::random::Random;
use cloths::stored::folders;
use cloths::swatch::Swatch;
use compare::card_shapes::SHAPES;
use compare::damage::damage;
use std::fs;

const SEED: u64 = 107;
const BLACK_BESIDE_RED: &[u8] = b"     2     1\n   0   0   0\n 255   0   0\n";
const GREY_LINE: &[u8] = b"   9   9   9\n";
/// The bytes of the longest swatch.
const LONGEST: usize = 13 * 16_385;

pub fn cases() -> Result<Vec<Case>, String> {
    let mut all = vec![text("the first sample, black beside red", BLACK_BESIDE_RED)];
    all.extend(headers());
    all.extend(sizes());
    all.extend(pixel_lines());
    all.extend(grounds_at_once());
    all.extend(first_bytes());
    all.extend(lengths());
    all.extend(entry_counts());
    all.extend(drawn());
    all.extend(stored()?);
    Ok(all)
}

fn text(what: impl Into<String>, bytes: impl Into<Vec<u8>>) -> Case {
    Case::new(what, Call::PrintCard(bytes.into()))
}

/// Ground 1 from both sides, before one good pixel.
fn headers() -> Vec<Case> {
    let headers = [
        ("a header of two fields", "     1     1\n"),
        ("a leading zero in the width: ground 1", "    01     1\n"),
        ("a leading zero in the height: ground 1", "     1    01\n"),
        ("a width of spaces: ground 1", "           1\n"),
        ("a height of spaces: ground 1", "     1      \n"),
        ("a width to the left: ground 1", "1          1\n"),
        ("a space inside the width: ground 1", "   1 1     1\n"),
        ("a header of 11 characters: ground 1", "     1    1\n"),
        ("a header of 13 characters: ground 1", "      1     1\n"),
        ("a header with a digit behind: ground 1", "     1     11\n"),
        ("a header of three fields: ground 1", "     1     1     1\n"),
        (
            "a header with a carriage return: ground 1",
            "     1     1\r\n",
        ),
        ("a minus: ground 1", "     1    -1\n"),
        ("a plus: ground 1", "     1    +1\n"),
        ("a letter: ground 1", "     1     l\n"),
        ("the byte after 9: ground 1", "     1     :\n"),
        ("the byte before 0: ground 1", "     1     /\n"),
        ("a tab instead of spaces: ground 1", "\t    1     1\n"),
        ("a byte 0 instead of a space: ground 1", "\0    1     1\n"),
        ("an empty header: ground 1", "\n"),
    ];
    let with_pixel = |header: &str| [header.as_bytes(), GREY_LINE].concat();
    let mut all: Vec<Case> = headers
        .map(|(what, header)| text(what, with_pixel(header)))
        .into();
    all.push(text("nothing: ground 1", ""));
    all.push(text(
        "a header without its line feed: ground 1",
        "     1     1",
    ));
    all
}

/// Ground 2 from both sides, with as many pixel lines as asked for.
fn sizes() -> Vec<Case> {
    let sizes = [
        ("1 x 1", 1, 1, 1),
        ("1 x 3: rows", 1, 3, 3),
        ("3 x 1: columns", 3, 1, 3),
        ("0 x 0: ground 2", 0, 0, 0),
        ("0 x 5: ground 2", 0, 5, 0),
        ("5 x 0: ground 2", 5, 0, 0),
        ("5 x 0 with pixels: ground 2", 5, 0, 5),
        ("16,384 x 1, the most", 16_384, 1, 16_384),
        ("128 x 128, the most", 128, 128, 16_384),
        ("16,385 x 1: ground 2", 16_385, 1, 16_385),
        ("129 x 128: ground 2", 129, 128, 1),
        (
            "65,536 x 65,536, which is 0 in 32 bits: ground 2",
            65_536,
            65_536,
            0,
        ),
        ("65,537 x 1, which is 1 in 16 bits: ground 2", 65_537, 1, 1),
        ("999,999 x 999,999: ground 2", 999_999, 999_999, 1),
    ];
    sizes
        .map(|(what, width, height, lines)| {
            let mut bytes = format!("{width:6}{height:6}\n").into_bytes();
            bytes.extend(GREY_LINE.repeat(lines));
            text(what, bytes)
        })
        .into()
}

/// Ground 3 from both sides, behind a header of one pixel.
fn pixel_lines() -> Vec<Case> {
    let lines: [(&str, &[u8]); 29] = [
        ("the largest field", b" 255 255 255\n"),
        ("the smallest field", b"   0   0   0\n"),
        ("fields of one, two and three digits", b"   7  42 100\n"),
        ("256 as red: ground 3", b" 256   0   0\n"),
        ("256 as green: ground 3", b"   0 256   0\n"),
        ("256 as blue: ground 3", b"   0   0 256\n"),
        ("9999: ground 3", b"9999   0   0\n"),
        ("a leading zero: ground 3", b"   0  01   0\n"),
        ("0255: ground 3", b"0255   0   0\n"),
        ("00: ground 3", b"   0   0  00\n"),
        ("a field of spaces: ground 3", b"   0       0\n"),
        ("a field to the left: ground 3", b"   0 0     0\n"),
        ("a space inside a field: ground 3", b" 1 2   0   0\n"),
        ("11 characters: ground 3", b"  0   0   0\n"),
        ("13 characters: ground 3", b"    0   0   0\n"),
        ("a space behind: ground 3", b"   0   0   0 \n"),
        ("a digit behind: ground 3", b"   0   0   00\n"),
        ("four fields: ground 3", b"   0   0   0   0\n"),
        ("two fields: ground 3", b"   0   0\n"),
        ("a carriage return: ground 3", b"   0   0   0\r\n"),
        ("no line feed: ground 3", b"   0   0   0"),
        ("no line: ground 3", b""),
        ("an empty line: ground 3", b"\n"),
        (
            "a line left over: ground 3",
            b"   0   0   0\n   0   0   0\n",
        ),
        ("a line feed left over: ground 3", b"   0   0   0\n\n"),
        ("a byte left over: ground 3", b"   0   0   0\n "),
        ("a minus: ground 3", b"   0   0  -0\n"),
        ("the byte 255: ground 3", b"   0   0   \xff\n"),
        (
            "the byte 160, which is a space elsewhere: ground 3",
            b"  \xa00   0   0\n",
        ),
    ];
    lines
        .map(|(what, line)| text(what, [b"     1     1\n", line].concat()))
        .into()
}

/// Ground 11 comes last too; that one is stored.
fn grounds_at_once() -> Vec<Case> {
    vec![
        text("grounds 1, 2, 3 hold: 1 comes first", "     0    00\nx"),
        text("grounds 1, 3 hold: 1 comes first", "     1    01\nx"),
        text("grounds 2, 3 hold: 2 comes first", "     0     1\nx"),
        text("ground 3 alone", "     1     1\nx"),
    ]
}

/// Cut off at every place.
fn first_bytes() -> Vec<Case> {
    let lengths = 0..BLACK_BESIDE_RED.len();
    lengths
        .map(|len| {
            text(
                format!("the first {len} bytes of the sample"),
                &BLACK_BESIDE_RED[..len],
            )
        })
        .collect()
}

/// As long as the longest swatch, and longer.
fn lengths() -> Vec<Case> {
    let longest = [b"   128   128\n".as_slice(), &GREY_LINE.repeat(16_384)].concat();
    let with = |rest: &[u8]| [longest.as_slice(), rest].concat();
    vec![
        text("the longest swatch and a byte: ground 3", with(b" ")),
        text("the longest swatch and a line: ground 3", with(GREY_LINE)),
        text("the longest swatch twice: ground 3", longest.repeat(2)),
        text(
            "the longest swatch less a byte: ground 3",
            &longest[..LONGEST - 1],
        ),
        text(
            "spaces, as many as the longest swatch has bytes: ground 1",
            vec![b' '; LONGEST],
        ),
        text("more spaces: ground 1", vec![b' '; LONGEST + 1]),
        text("a million line feeds: ground 1", vec![b'\n'; 1_000_000]),
        text("a pixel more than the most, and all its lines: ground 2", {
            [b" 16385     1\n".as_slice(), &GREY_LINE.repeat(16_385)].concat()
        }),
    ]
}

/// With ten pixels for each entry; others, on both sides of both limits, are stored.
fn entry_counts() -> Vec<Case> {
    let one = |(what, entries): (&str, usize)| {
        let colours = full_cards::colours(entries);
        let pixels = colours
            .into_iter()
            .flat_map(|colour| [colour; 10])
            .collect();
        text(what, Swatch::row(pixels).text())
    };
    [
        ("257 entries", 257),
        ("262 entries", 262),
        ("1,002 entries: ground 11", 1_002),
        (
            "1,025 entries, which are 1 in 8 bits and in 10: ground 11",
            1_025,
        ),
    ]
    .map(one)
    .into()
}

/// Small swatches, whole and damaged.
fn drawn() -> Vec<Case> {
    let mut random = Random::new(SEED);
    let mut all = Vec::new();
    for index in 0..120 {
        let (width, height) = (1 + random.below(6), 1 + random.below(5));
        let mut pixels = SHAPES[index % SHAPES.len()](&mut random, width * height);
        // Some shapes leave the last row short.
        pixels.resize(width * height, [0; 3]);
        let swatch = Swatch {
            width,
            height,
            pixels,
        };
        let mut bytes = swatch.text();
        let times = [0, 1, 1, 1, 3][index % 5];
        for _ in 0..times {
            damage(&mut random, &mut bytes);
        }
        let what = match times {
            0 => format!("drawn: {width} x {height}"),
            1 => format!("drawn: {width} x {height}, damaged or changed in one place"),
            _ => format!("drawn: {width} x {height}, damaged or changed in {times} places"),
        };
        all.push(text(what, bytes));
    }
    all
}

/// The files under `tests/swatches` and `examples`.
fn stored() -> Result<Vec<Case>, String> {
    let mut all = Vec::new();
    for (folder, path) in folders().into_iter().zip(["../swatches", "../../examples"]) {
        for name in folder.names()? {
            let file = folder.text_file(&name);
            let bytes = fs::read(&file).map_err(|wrong| format!("{}: {wrong}", file.display()))?;
            let mut case = text(format!("stored: {}", name.replace('-', " ")), bytes);
            let text_file = format!("{path}/{name}.{}", folder.ending);
            case.kept_in = Some([text_file, format!("{path}/{name}.card")]);
            all.push(case);
        }
    }
    Ok(all)
}
