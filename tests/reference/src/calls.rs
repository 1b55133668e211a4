//! The public calls: the grounds that concern them, and their answers, served or turned down.

use crate::cards::{self, Card, Entry, Pixel};
use crate::logs::{self, Logged};
use crate::measures::{self, Measures};
use crate::rings::{Finished, RingTraits};
use crate::test::{self, Verdict};
use crate::{lines, pooling, rings, swatches};

/// The most bins of a histogram, and so the places of a fit.
pub const MOST_BINS: usize = 256;
pub const LEAST_BINS: usize = 2;
pub const MOST_PIXELS: u128 = 65_536;
pub const LEAST_CLOSENESS: i32 = -10;
pub const MOST_CLOSENESS: i32 = 20;
/// The most entries that a card may hold.
pub const MOST_ENTRIES: usize = 1_000;
/// The most entries of a card whose labels are to be one byte each, as they once all were.
pub const MOST_NARROW_ENTRIES: usize = 255;
/// The most bytes printed: a line of 3 fields of 6 columns, and a line of 8 for each entry.
pub const MOST_PRINTED: usize = 19 + 49 * MOST_ENTRIES;
/// The closeness at which the card program works.
pub const PROGRAM_CLOSENESS: i32 = 0;
/// The number of a call whose labels do not have the places that they must have.
pub const OTHER_PLACES: u32 = 9;
/// The number of a card that would have too many entries.
pub const TOO_MANY_ENTRIES: u32 = 11;
/// The number of a replay whose log is not the line's.
pub const ANOTHER_LOG: u32 = 20;

#[derive(Clone, Copy, Debug, PartialEq, Eq)]
pub struct MeasuresAnswer {
    pub number: u32,
    pub measures: Measures,
}

#[derive(Clone, Copy, Debug, PartialEq, Eq)]
pub struct FitAnswer {
    pub number: u32,
    pub sums: [u32; MOST_BINS],
    pub lengths: [u32; MOST_BINS],
}

#[derive(Clone, Copy, Debug, PartialEq, Eq)]
pub struct VerdictAnswer {
    pub number: u32,
    pub verdict: Verdict,
}

/// How many separators there are. They themselves are in the list that was lent.
#[derive(Clone, Copy, Debug, PartialEq, Eq)]
pub struct ModesAnswer {
    pub number: u32,
    pub separators: u32,
}

/// How many joins there are. Their records are in the log that was lent.
#[derive(Clone, Copy, Debug, PartialEq, Eq)]
pub struct LogAnswer {
    pub number: u32,
    pub joins: u32,
}

/// The first `len` entries are the card's; the labels are in the buffer that was lent.
#[derive(Clone, Copy, Debug, PartialEq, Eq)]
pub struct CardAnswer {
    pub number: u32,
    pub len: u32,
    pub entries: [Entry; MOST_ENTRIES],
}

/// The first `len` bytes are to be printed.
#[derive(Clone, Copy, Debug, PartialEq, Eq)]
pub struct PrintedAnswer {
    pub number: u32,
    pub len: u32,
    pub bytes: [u8; MOST_PRINTED],
}

pub fn measures(red: u8, green: u8, blue: u8) -> MeasuresAnswer {
    MeasuresAnswer {
        number: 0,
        measures: measures::measures(red, green, blue),
    }
}

pub fn fit(histogram: &[u32], rising: bool) -> FitAnswer {
    let number = first_ground(histogram, None, None);
    let mut answer = FitAnswer {
        number,
        sums: [0; MOST_BINS],
        lengths: [0; MOST_BINS],
    };
    if number == 0 {
        for (bin, block) in pooling::fit(&counts(histogram), rising).iter().enumerate() {
            answer.sums[bin] = block.sum as u32;
            answer.lengths[bin] = block.len as u32;
        }
    }
    answer
}

pub fn verdict(histogram: &[u32], rising: bool, closeness: i32) -> VerdictAnswer {
    let number = first_ground(histogram, Some(closeness), None);
    let verdict = if number == 0 {
        test::verdict(&counts(histogram), rising, closeness)
    } else {
        Verdict {
            cost: 0,
            rejected: false,
        }
    };
    VerdictAnswer { number, verdict }
}

pub fn line_modes(histogram: &[u32], closeness: i32, list: &mut [u32]) -> ModesAnswer {
    modes(histogram, closeness, list, lines::separators)
}

/// The list goes from the lowest bin number up, wherever the ring opens and its modes begin to number.
pub fn ring_modes(histogram: &[u32], closeness: i32, list: &mut [u32]) -> ModesAnswer {
    ring_modes_and_traits(histogram, closeness, list).0
}

/// The same, with the ring's traits; without any, if the call is turned down.
pub fn ring_modes_and_traits(
    histogram: &[u32],
    closeness: i32,
    list: &mut [u32],
) -> (ModesAnswer, RingTraits) {
    let (answer, ring) = ring_modes_and_ring(histogram, closeness, list);
    (
        answer,
        ring.map_or(RingTraits::default(), |ring| ring.traits),
    )
}

/// The same, with the finished ring, which has its modes by number; with none, if the call is turned down.
pub fn ring_modes_and_ring(
    histogram: &[u32],
    closeness: i32,
    list: &mut [u32],
) -> (ModesAnswer, Option<Finished>) {
    let mut ring = None;
    let answer = modes(histogram, closeness, list, |counts, closeness| {
        let finished = ring.insert(rings::finished(counts, closeness));
        finished.separators()
    });
    (answer, ring)
}

fn modes(
    histogram: &[u32],
    closeness: i32,
    list: &mut [u32],
    separators: impl FnOnce(&[u64], i32) -> Vec<usize>,
) -> ModesAnswer {
    let number = first_ground(histogram, Some(closeness), Some(list.len()));
    if number != 0 {
        return modes_turned_down(number);
    }
    listed(&separators(&counts(histogram), closeness), list)
}

fn modes_turned_down(number: u32) -> ModesAnswer {
    ModesAnswer {
        number,
        separators: 0,
    }
}

/// The answer of a call that is served, its separators at the start of the list.
fn listed(separators: &[usize], list: &mut [u32]) -> ModesAnswer {
    for (place, &separator) in list.iter_mut().zip(separators) {
        *place = separator as u32;
    }
    ModesAnswer {
        number: 0,
        separators: separators.len() as u32,
    }
}

pub fn join_log(histogram: &[u32], closeness: i32, log: &mut [i64]) -> LogAnswer {
    Joins::of(histogram, closeness).log(log)
}

/// The modes of a line by a log of its joins, which may be any list of numbers.
pub fn replay(histogram: &[u32], closeness: i32, log: &[i64], list: &mut [u32]) -> ModesAnswer {
    Joins::of(histogram, closeness).replay(log, list)
}

/// A line with its own log, for whoever makes several of these calls on one line: finding the log takes long.
pub struct Joins<'a> {
    histogram: &'a [u32],
    closeness: i32,
    /// None where every call is turned down.
    pub line: Option<Logged>,
}

impl<'a> Joins<'a> {
    pub fn of(histogram: &'a [u32], closeness: i32) -> Joins<'a> {
        let served = first_ground(histogram, Some(closeness), None) == 0;
        Joins {
            histogram,
            closeness,
            line: served.then(|| logs::logged(&counts(histogram), closeness)),
        }
    }

    /// The log is written to the start of what is lent. A place is as many numbers as a record, and numbers that are too few
    /// for one more do not count.
    pub fn log(&self, log: &mut [i64]) -> LogAnswer {
        let number = self.first_ground(log.len() / logs::RECORD);
        match (number, &self.line) {
            (0, Some(line)) => {
                for (place, figure) in log.iter_mut().zip(line.numbers()) {
                    *place = figure;
                }
                let joins = line.records.len() as u32;
                LogAnswer { number, joins }
            }
            _ => LogAnswer { number, joins: 0 },
        }
    }

    pub fn replay(&self, log: &[i64], list: &mut [u32]) -> ModesAnswer {
        let number = self.first_ground(list.len());
        let separators = self.line.as_ref().and_then(|line| line.replayed(log));
        match (number, separators) {
            (0, Some(separators)) => listed(separators, list),
            (0, None) => modes_turned_down(ANOTHER_LOG),
            _ => modes_turned_down(number),
        }
    }

    fn first_ground(&self, places: usize) -> u32 {
        first_ground(self.histogram, Some(self.closeness), Some(places))
    }
}

pub fn card(bytes: &[u8], closeness: i32, labels: &mut [u16]) -> CardAnswer {
    Carded::of(bytes, closeness, labels.len()).answer(labels)
}

/// An image with its card, for whoever asks for it under more than one limit: finding the card takes long.
pub struct Carded {
    /// The first ground before 11, 0 where none holds.
    number: u32,
    /// None where a ground before 11 holds.
    card: Option<Card>,
}

impl Carded {
    pub fn of(bytes: &[u8], closeness: i32, places: usize) -> Carded {
        let number = first_card_ground(bytes, closeness, places);
        let pixels = bytes.chunks_exact(3).map(|rgb| [rgb[0], rgb[1], rgb[2]]);
        let card = || cards::card(&pixels.collect::<Vec<Pixel>>(), closeness);
        Carded {
            number,
            card: (number == 0).then(card),
        }
    }

    pub fn answer(&self, labels: &mut [u16]) -> CardAnswer {
        self.limited(MOST_ENTRIES, labels)
    }

    /// The answer where a card may hold so few entries that one byte is enough for a label.
    pub fn narrow_answer(&self, labels: &mut [u8]) -> CardAnswer {
        self.limited(MOST_NARROW_ENTRIES, labels)
    }

    /// The traits of the ring of hues; none, if the call is turned down before the hues are divided.
    pub fn hue_traits(&self) -> RingTraits {
        let card = self.card.as_ref();
        card.map_or(RingTraits::default(), |card| card.hue_traits)
    }

    /// The answer where a card may hold this many entries, with the labels in the list only if it is served.
    fn limited<L: TryFrom<usize>>(&self, most: usize, labels: &mut [L]) -> CardAnswer {
        let Some(card) = &self.card else {
            return card_answer(self.number, &[]);
        };
        if card.entries.len() > most {
            return card_answer(TOO_MANY_ENTRIES, &[]);
        }
        for (place, &label) in labels.iter_mut().zip(&card.labels) {
            let fits = L::try_from(label).ok();
            *place = fits.expect("a label holds every number below the limit");
        }
        card_answer(0, &card.entries)
    }
}

fn card_answer(number: u32, card: &[Entry]) -> CardAnswer {
    let mut entries = [Entry::default(); MOST_ENTRIES];
    entries[..card.len()].copy_from_slice(card);
    CardAnswer {
        number,
        len: card.len() as u32,
        entries,
    }
}

/// Labels of one byte each as labels of 16 bits, in the list that is lent. The answer is the number alone.
pub fn widen_labels(narrow: &[u8], labels: &mut [u16]) -> u32 {
    if narrow.len() != labels.len() {
        return OTHER_PLACES;
    }
    let wide: Vec<u16> = narrow.iter().map(|&label| u16::from(label)).collect();
    labels.copy_from_slice(&wide);
    0
}

/// The card of a swatch, both as text.
pub fn print_card(text: &[u8]) -> PrintedAnswer {
    let outcome = swatches::read(text).and_then(|pixels| {
        let bytes = pixels.concat();
        let card = card(&bytes, PROGRAM_CLOSENESS, &mut vec![0; pixels.len()]);
        let entries = &card.entries[..card.len as usize];
        let printed = swatches::printed_card(entries, pixels.len(), PROGRAM_CLOSENESS);
        if card.number == 0 {
            Ok(printed)
        } else {
            Err(card.number)
        }
    });
    match outcome {
        Ok(card) => printed_answer(0, &card),
        Err(number) => printed_answer(number, ""),
    }
}

/// The line that the card program prints for a swatch that is turned down.
pub fn print_ground(number: u32) -> PrintedAnswer {
    printed_answer(0, &swatches::printed_number(number))
}

fn printed_answer(number: u32, printed: &str) -> PrintedAnswer {
    let mut answer = PrintedAnswer {
        number,
        len: printed.len() as u32,
        bytes: [0; MOST_PRINTED],
    };
    answer.bytes[..printed.len()].copy_from_slice(printed.as_bytes());
    answer
}

/// What the card program prints for a text: the card, or the line of the ground on which it is turned down.
pub fn program(text: &[u8]) -> PrintedAnswer {
    let card = print_card(text);
    match card.number {
        0 => card,
        ground => print_ground(ground),
    }
}

/// The number of the first ground before 11 that holds, 0 when none does.
fn first_card_ground(bytes: &[u8], closeness: i32, places: usize) -> u32 {
    let pixels = bytes.len() / 3;
    first_of(&[
        (4, bytes.is_empty() || !bytes.len().is_multiple_of(3)),
        (5, pixels as u128 > MOST_PIXELS),
        (8, !is_served(closeness)),
        (OTHER_PLACES, places != pixels),
    ])
}

/// The number of the first ground before 20 that holds, 0 when none does. A fit has no closeness, and only modes and joins
/// are listed in places that were lent.
pub fn first_ground(histogram: &[u32], closeness: Option<i32>, places: Option<usize>) -> u32 {
    let bins = histogram.len();
    let sum: u128 = histogram.iter().map(|&count| u128::from(count)).sum();
    first_of(&[
        (6, !(LEAST_BINS..=MOST_BINS).contains(&bins)),
        (7, sum > MOST_PIXELS),
        (8, closeness.is_some_and(|e| !is_served(e))),
        (10, places.is_some_and(|places| places < bins)),
    ])
}

/// Whether there is an answer at this closeness, taken with its sign.
fn is_served(closeness: i32) -> bool {
    (LEAST_CLOSENESS..=MOST_CLOSENESS).contains(&closeness)
}

fn first_of(grounds: &[(u32, bool)]) -> u32 {
    grounds
        .iter()
        .find(|(_, holds)| *holds)
        .map_or(0, |(number, _)| *number)
}

fn counts(histogram: &[u32]) -> Vec<u64> {
    histogram.iter().map(|&count| u64::from(count)).collect()
}
