//! The calls as the static library exports them, declared by hand from `crates/kistrovu/src/lib.rt`, with the same names.
//!
//! An answer's `number` is 0 if the call was served, else the ground on which it was turned down; then every other figure
//! is zero, and every lent list is as it was lent. The proof does not cover these declarations. Flags that come back are
//! `u8`: a Rust `bool` that is neither 0 nor 1 is undefined behaviour, and nothing is assumed about a byte that foreign
//! code hands back. Flags that go in are `bool`, which Rust keeps at 0 or 1.
//!
//! # Safety
//!
//! A pointer and the length after it must stand for that many places, which the call may read, and also write if the
//! pointer is `*mut`. The pointer must be aligned for its type and not null, even if the length is 0. What is written must
//! not overlap another argument. Nothing else is required: every call is served or turned down, whatever the figures are.

/// The most bins of a histogram, and so the places of a fit.
pub const MOST_BINS: usize = 256;
/// The numbers of a record in a log of joins, and so of a place of a log.
pub const RECORD_NUMBERS: usize = 4;
/// The most pixels of an image, and the most that a histogram's counts may sum to.
pub const MOST_PIXELS: usize = 65_536;
/// The least closeness.
pub const LEAST_CLOSENESS: i32 = -10;
/// The largest closeness.
pub const MOST_CLOSENESS: i32 = 20;
/// The most entries of a card.
pub const MOST_ENTRIES: usize = 1_000;
/// The most bytes that are printed: a line of 3 fields of 6 columns, and a line of 8 for each entry.
pub const MOST_PRINTED: usize = 19 + 49 * MOST_ENTRIES;

/// The measures of a pixel.
#[repr(C)]
#[derive(Clone, Copy, Debug, PartialEq, Eq)]
pub struct Measures {
    /// The intensity bin, 0 to 51.
    pub intensity: u8,
    /// The saturation bin, 0 to 41.
    pub saturation: u8,
    /// The hue bin, 0 to 59; 0 for a grey.
    pub hue: u8,
    /// 1 for a grey, 0 for a colour.
    pub grey: u8,
}

/// What [`kistrovu_measures`] hands back.
#[repr(C)]
#[derive(Clone, Copy, Debug, PartialEq, Eq)]
pub struct MeasuresAnswer {
    /// Always 0.
    pub number: u32,
    /// The pixel's measures.
    pub measures: Measures,
}

/// What [`kistrovu_fit`] hands back. Places past the last bin are zero.
#[repr(C)]
#[derive(Clone, Copy, Debug, PartialEq, Eq)]
pub struct FitAnswer {
    /// 0, 6 or 7.
    pub number: u32,
    /// For each bin the sum of its block.
    pub sums: [u32; MOST_BINS],
    /// For each bin the length of its block.
    pub lengths: [u32; MOST_BINS],
}

/// The verdict on a histogram.
#[repr(C)]
#[derive(Clone, Copy, Debug, PartialEq, Eq)]
pub struct Verdict {
    /// The cost in units of 1/67,108,864 of a bit.
    pub cost: i64,
    /// 1 if the histogram is rejected, else 0.
    pub rejected: u8,
}

/// What [`kistrovu_verdict`] hands back.
#[repr(C)]
#[derive(Clone, Copy, Debug, PartialEq, Eq)]
pub struct VerdictAnswer {
    /// 0, 6, 7 or 8.
    pub number: u32,
    /// The verdict.
    pub verdict: Verdict,
}

/// What [`kistrovu_line_modes`], [`kistrovu_ring_modes`] and [`kistrovu_replay`] hand back.
#[repr(C)]
#[derive(Clone, Copy, Debug, PartialEq, Eq)]
pub struct ModesAnswer {
    /// 0, 6, 7, 8 or 10; for a replay also 20.
    pub number: u32,
    /// How many separators are in the first places of the list.
    pub separators: u32,
}

/// A join as a log has it: four numbers in a row. The engine writes what is said of each; a record from elsewhere may hold
/// anything.
#[repr(C)]
#[derive(Clone, Copy, Debug, Default, PartialEq, Eq, Hash)]
pub struct JoinRecord {
    /// The number of the first segment that is joined, as the segments are numbered just before the join.
    pub first: i64,
    /// How many segments are joined, 2 or more.
    pub length: i64,
    /// 0 if they are joined by the fall, 1 if by the rise.
    pub rise: i64,
    /// The cost in units of 1/67,108,864 of a bit; below 0.
    pub cost: i64,
}

/// What [`kistrovu_join_log`] hands back.
#[repr(C)]
#[derive(Clone, Copy, Debug, PartialEq, Eq)]
pub struct LogAnswer {
    /// 0, 6, 7, 8 or 10.
    pub number: u32,
    /// How many joins there are; their records are in the first places of the log.
    pub joins: u32,
}

/// An entry of a card.
#[repr(C)]
#[derive(Clone, Copy, Debug, PartialEq, Eq)]
pub struct Entry {
    /// 0 grey, 1 colour.
    pub kind: u8,
    /// The number of its hue mode; 0 for a grey.
    pub hue: u8,
    /// The number of its saturation mode; 0 for a grey.
    pub saturation: u8,
    /// The number of its intensity mode.
    pub intensity: u8,
    /// The mean red of its pixels, halves rounded up.
    pub red: u8,
    /// The mean green, likewise.
    pub green: u8,
    /// The mean blue, likewise.
    pub blue: u8,
    /// How many pixels it has.
    pub count: u32,
}

/// What [`kistrovu_card`] hands back.
#[repr(C)]
#[derive(Clone, Copy, Debug, PartialEq, Eq)]
pub struct Card {
    /// 0, 4, 5, 8, 9 or 11.
    pub number: u32,
    /// How many entries there are.
    pub len: u32,
    /// The entries in the first places; the rest are zero.
    pub entries: [Entry; MOST_ENTRIES],
}

/// What [`kistrovu_print_card`] and [`kistrovu_print_ground`] hand back.
#[repr(C)]
#[derive(Clone, Copy, Debug, PartialEq, Eq)]
pub struct Printed {
    /// 0, 1, 2, 3 or 11; always 0 for the line of a ground.
    pub number: u32,
    /// How many bytes there are to print.
    pub len: u32,
    /// The bytes to print in the first places; the rest are zero.
    pub bytes: [u8; MOST_PRINTED],
}

// The engine's own sizes. There are no gaps except those before and after the figures of a verdict, the byte before an
// entry's count, and the end of what is printed.
const _: () = assert!(size_of::<MeasuresAnswer>() == 8);
const _: () = assert!(size_of::<FitAnswer>() == 4 + 8 * MOST_BINS);
const _: () = assert!(size_of::<VerdictAnswer>() == 24);
const _: () = assert!(size_of::<ModesAnswer>() == 8);
const _: () = assert!(size_of::<JoinRecord>() == 8 * RECORD_NUMBERS);
const _: () = assert!(size_of::<LogAnswer>() == 8);
const _: () = assert!(size_of::<Entry>() == 12);
const _: () = assert!(size_of::<Card>() == 8 + 12 * MOST_ENTRIES);
const _: () = assert!(size_of::<Printed>() == (8 + MOST_PRINTED).next_multiple_of(4));

extern "C" {
    /// The library's version: 10,000 · major + 100 · minor + patch.
    pub fn kistrovu_version() -> u32;

    /// The measures of one pixel.
    pub fn kistrovu_measures(red: u8, green: u8, blue: u8) -> MeasuresAnswer;

    /// The fit of a whole histogram, increasing or decreasing. Grounds 6, 7.
    pub fn kistrovu_fit(histogram: *const u32, bins: usize, rising: bool) -> FitAnswer;

    /// The verdict on a whole histogram. Grounds 6, 7, 8.
    pub fn kistrovu_verdict(
        histogram: *const u32,
        bins: usize,
        rising: bool,
        closeness: i32,
    ) -> VerdictAnswer;

    /// The modes of a line of bins: its separators, rising, in the first places of the list. Grounds 6, 7, 8, 10.
    pub fn kistrovu_line_modes(
        histogram: *const u32,
        bins: usize,
        closeness: i32,
        separators: *mut u32,
        places: usize,
    ) -> ModesAnswer;

    /// The modes of a ring of bins: its separators, from the lowest bin number up, in the first places of the list.
    /// Grounds 6, 7, 8, 10.
    pub fn kistrovu_ring_modes(
        histogram: *const u32,
        bins: usize,
        closeness: i32,
        separators: *mut u32,
        places: usize,
    ) -> ModesAnswer;

    /// The joins of a line of bins, in turn: the record of each, in the first places of the log. Grounds 6, 7, 8, 10.
    pub fn kistrovu_join_log(
        histogram: *const u32,
        bins: usize,
        closeness: i32,
        log: *mut i64,
        numbers: usize,
    ) -> LogAnswer;

    /// The modes of a line of bins by a log of its joins, which is only read: its separators, rising, in the first places
    /// of the list. Grounds 6, 7, 8, 10, 20.
    pub fn kistrovu_replay(
        histogram: *const u32,
        bins: usize,
        closeness: i32,
        log: *const i64,
        numbers: usize,
        separators: *mut u32,
        places: usize,
    ) -> ModesAnswer;

    /// The card of an image of three bytes a pixel, and the label of each pixel. Grounds 4, 5, 8, 9, 11.
    pub fn kistrovu_card(
        pixels: *const u8,
        bytes: usize,
        closeness: i32,
        labels: *mut u16,
        places: usize,
    ) -> Card;

    /// Labels of one byte, widened: each number unchanged. The answer is the number of the call. Ground 9.
    pub fn kistrovu_widen_labels(
        narrow: *const u8,
        count: usize,
        labels: *mut u16,
        places: usize,
    ) -> u32;

    /// The card of a swatch, both as text. Grounds 1, 2, 3, 11.
    pub fn kistrovu_print_card(text: *const u8, bytes: usize) -> Printed;

    /// The line that the card program prints for a swatch that is turned down. No ground concerns it.
    pub fn kistrovu_print_ground(number: u32) -> Printed;
}
