//! The named groups of texts for the call behind the card program, and of numbers for the lines of grounds, each of which
//! is one test.

use crate::card_shapes::SHAPES;
use crate::comparison::{Failure, Tally};
use crate::damage::damage;
use crate::entry_counts::EntryCounts;
use crate::least;
use cloths::full_cards;
use cloths::random::Random;
use cloths::swatch::Swatch;
use reference::swatches::MOST_SWATCH_PIXELS;

/// The bytes of the longest swatch there is.
const LONGEST: usize = 13 * (MOST_SWATCH_PIXELS as usize + 1);

const BLACK_BESIDE_RED: &[u8] = b"     2     1\n   0   0   0\n 255   0   0\n";

/// Where a group's texts come from.
pub enum TextSource {
    /// A list, the same length in every run.
    List(fn(&mut Random) -> Vec<Vec<u8>>),
    /// Random ones; how many, in thousandths of the count.
    Draw(fn(&mut Random) -> Vec<u8>, usize),
    /// A list made for numbers of entries, and how many cards of which numbers it has to have.
    Full(fn(&mut Random) -> Vec<Vec<u8>>, EntryCounts),
}

use TextSource::{Draw, Full, List};

pub const TEXTS: [(&str, TextSource); 13] = [
    ("samples", List(samples)),
    ("every byte in every place", List(every_byte)),
    ("every byte put in between", List(every_insertion)),
    ("every length", List(every_length)),
    ("headers", List(headers)),
    ("every field of four columns", List(every_field)),
    (
        "254 to 1,391 entries",
        Full(limits_of_cards, LEAST_OF_1_391),
    ),
    ("16,384 pixels", List(largest)),
    ("very long", List(very_long)),
    ("well formed", Draw(well_formed, 20)),
    ("damaged once", Draw(damaged_once, 80)),
    ("damaged often", Draw(damaged_often, 40)),
    ("any bytes", Draw(any_bytes, 10)),
];

const LEAST_OF_1_391: EntryCounts = EntryCounts::of([4, 14, 6, 2, 8]);

/// Numbers of grounds, drawn for this count.
pub type Numbers = fn(&mut Random, usize) -> Vec<u32>;

/// The numbers that have a line, drawn ones in the same shares as texts.
pub const GROUNDS: [(&str, Numbers); 2] =
    [("next to each limit", limits), ("any number", any_numbers)];

impl TextSource {
    /// Hands each text on, until one is refused.
    pub fn each<E>(
        &self,
        random: &mut Random,
        count: usize,
        mut visit: impl FnMut(&[u8]) -> Result<(), E>,
    ) -> Result<(), E> {
        match self {
            List(list) | Full(list, _) => list(random).iter().try_for_each(|text| visit(text)),
            Draw(one, share) => (0..count * share / 1000).try_for_each(|_| visit(&one(random))),
        }
    }

    /// Whether there were enough cards of the numbers of entries that the group is made for.
    pub fn check(&self, tally: &Tally) -> Result<(), Failure> {
        match self {
            List(_) | Draw(..) => Ok(()),
            Full(_, least) => least::reached(tally.entries.named(), least.named()),
        }
    }
}

/// Every ground, and numbers on both sides of where a digit more, or a bit more, is needed.
fn limits(_: &mut Random, _: usize) -> Vec<u32> {
    let tens = (0..10).map(|digits| u32::pow(10, digits));
    let twos = (0..32).map(|bits| 1 << bits);
    let around = |limit: u32| [limit - 1, limit, limit + 1];
    let last = [u32::MAX - 1, u32::MAX, 4_294_000_000, 4_000_000_000];
    (0..1000)
        .chain(tens.chain(twos).flat_map(around))
        .chain(last)
        .collect()
}

/// As many digits as are drawn first.
fn any_numbers(random: &mut Random, count: usize) -> Vec<u32> {
    let one = |random: &mut Random| (random.bits() >> (32 + random.below(32))) as u32;
    (0..count / 50).map(|_| one(random)).collect()
}

fn samples(_: &mut Random) -> Vec<Vec<u8>> {
    let text = BLACK_BESIDE_RED.to_vec();
    let feeds = String::from_utf8_lossy(BLACK_BESIDE_RED).replace('\n', "\r\n");
    let upright = b"     1     2\n   0   0   0\n 255   0   0\n".to_vec();
    vec![text, feeds.into_bytes(), upright, Vec::new()]
}

fn every_byte(_: &mut Random) -> Vec<Vec<u8>> {
    let mut texts = Vec::new();
    for place in 0..BLACK_BESIDE_RED.len() {
        for byte in 0..=255 {
            let mut text = BLACK_BESIDE_RED.to_vec();
            text[place] = byte;
            texts.push(text);
        }
    }
    texts
}

fn every_insertion(_: &mut Random) -> Vec<Vec<u8>> {
    let mut texts = Vec::new();
    for place in 0..=BLACK_BESIDE_RED.len() {
        for byte in 0..=255 {
            let mut text = BLACK_BESIDE_RED.to_vec();
            text.insert(place, byte);
            texts.push(text);
        }
    }
    texts
}

/// The first bytes, the last bytes, and all but one or two.
fn every_length(_: &mut Random) -> Vec<Vec<u8>> {
    let whole = BLACK_BESIDE_RED;
    let mut texts = Vec::new();
    for at in 0..=whole.len() {
        texts.push(whole[..at].to_vec());
        texts.push(whole[at..].to_vec());
        for left_out in [1, 2, 13] {
            if at + left_out <= whole.len() {
                texts.push([&whole[..at], &whole[at + left_out..]].concat());
            }
        }
    }
    texts
}

/// Many sizes, with as many lines as they ask for, one more and one less.
fn headers(_: &mut Random) -> Vec<Vec<u8>> {
    let sides = [
        0, 1, 2, 3, 5, 127, 128, 129, 255, 256, 8192, 16_383, 16_384, 16_385, 32_768, 65_535,
        65_536, 65_537, 131_072, 524_288, 999_999,
    ];
    let mut texts = Vec::new();
    for width in sides {
        for height in sides {
            let size: u64 = width * height;
            for lines in [size, size + 1, size.saturating_sub(1), 0, 1] {
                if lines <= 300 || (lines <= 16_386 && (width == 128 || height == 1)) {
                    let mut text = format!("{width:6}{height:6}\n").into_bytes();
                    text.extend(b"   9   9   9\n".repeat(lines as usize));
                    texts.push(text);
                }
            }
        }
    }
    texts
}

/// Every text of four of these bytes as a field of a pixel line, and of a header behind two spaces.
fn every_field(_: &mut Random) -> Vec<Vec<u8>> {
    let bytes = b" 0125\n-";
    let mut texts = Vec::new();
    for code in 0..bytes.len().pow(4) {
        let digit = |place| bytes[code / bytes.len().pow(place) % bytes.len()];
        let field: Vec<u8> = (0..4).map(digit).collect();
        texts.push([b"     1     1\n   7", field.as_slice(), b"   7\n"].concat());
        let header = [b"     1  ", field.as_slice(), b"\n"].concat();
        texts.push([header, b"   7   7   7\n".to_vec()].concat());
    }
    texts
}

/// Ten pixels for each entry, and as many as a swatch can have; each text without its last byte too, which is ground 3.
fn limits_of_cards(_: &mut Random) -> Vec<Vec<u8>> {
    let mut texts = Vec::new();
    for entries in [
        254,
        255,
        256,
        257,
        262,
        512,
        513,
        999,
        1_000,
        1_001,
        1_024,
        1_256,
        full_cards::MOST,
    ] {
        for each in [10, MOST_SWATCH_PIXELS as usize / entries] {
            let text = Swatch::row(full_cards::pixels(entries, each)).text();
            texts.push(text[..text.len() - 1].to_vec());
            texts.push(text);
        }
    }
    texts
}

/// Sizes of 16,384 pixels, whole and damaged.
fn largest(random: &mut Random) -> Vec<Vec<u8>> {
    let mut texts = Vec::new();
    for index in 0..22 {
        let pixels = SHAPES[index % SHAPES.len()](random, MOST_SWATCH_PIXELS as usize);
        let width = 1 << random.below(15);
        let height = pixels.len() / width;
        let mut text = Swatch {
            width,
            height,
            pixels,
        }
        .text();
        texts.push(text.clone());
        damage(random, &mut text);
        texts.push(text);
    }
    texts
}

/// Longer than any swatch, by a byte or by a million; the first bytes are those of a swatch, or not.
pub fn very_long(random: &mut Random) -> Vec<Vec<u8>> {
    let mut texts = Vec::new();
    let swatch = |header: &str| [header.as_bytes(), &b"   1   2   3\n".repeat(16_384)].concat();
    for header in [
        "   128   128\n",
        "   128   129\n",
        "     1     1\n",
        "   128  128 \n",
        "",
    ] {
        let whole = swatch(header);
        for rest in [1, 2, 12, 13, 14, 1 << 20] {
            for byte in [b' ', b'\n', b'0'] {
                texts.push([whole.as_slice(), &vec![byte; rest]].concat());
            }
        }
        texts.push(whole.repeat(5));
    }
    for byte in [b' ', b'\n', b'0', 0, 255] {
        texts.push(vec![byte; LONGEST]);
        texts.push(vec![byte; LONGEST + 1]);
        texts.push(vec![byte; 4 * LONGEST]);
    }
    texts.push((0..LONGEST).map(|_| random.bits() as u8).collect());
    texts
}

fn well_formed(random: &mut Random) -> Vec<u8> {
    let most = if random.one_in(10) { 30 } else { 6 };
    let (width, height) = (1 + random.below(most), 1 + random.below(most));
    let shape = SHAPES[random.below(SHAPES.len())];
    let mut pixels = shape(random, width * height);
    // Some shapes leave the last row short.
    pixels.resize(width * height, [0; 3]);
    Swatch {
        width,
        height,
        pixels,
    }
    .text()
}

fn damaged_once(random: &mut Random) -> Vec<u8> {
    let mut text = well_formed(random);
    damage(random, &mut text);
    text
}

fn damaged_often(random: &mut Random) -> Vec<u8> {
    let mut text = well_formed(random);
    for _ in 0..2 + random.below(5) {
        damage(random, &mut text);
    }
    text
}

fn any_bytes(random: &mut Random) -> Vec<u8> {
    let alphabet: &[u8] = match random.below(3) {
        0 => b" 0123456789\n",
        1 => b"    01\n",
        _ => b" \n\r\t\0+-9",
    };
    let count = random.below(80);
    (0..count)
        .map(|_| alphabet[random.below(alphabet.len())])
        .collect()
}
