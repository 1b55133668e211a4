//! The cases of the kit, by call. Answers are not part of them.

pub mod cards;
mod denominators;
pub mod fits;
pub mod grounds;
pub mod histograms;
pub mod labels;
pub mod logs;
pub mod modes;
pub mod pixels;
mod rounds;
pub mod texts;
mod turns;
pub mod verdicts;

use crate::calls::Call;

/// A record to be: what it is for, and its calls. Only measures have more than one.
pub struct Case {
    pub what: String,
    pub calls: Vec<Call>,
    /// The files in which the text and what is printed stand already, seen from the folder of the kit.
    pub kept_in: Option<[String; 2]>,
}

impl Case {
    fn new(what: impl Into<String>, call: Call) -> Case {
        Case {
            what: what.into(),
            calls: vec![call],
            kept_in: None,
        }
    }
}

/// A list as lent: no bins, and falling, so that a place that is written, moved or sorted shows.
fn unwritten_list(places: usize) -> Vec<u32> {
    (0..places as u32).map(|place| 907 - place % 7).collect()
}

/// A log as lent, alike: no numbers of a record, and none that fits 32 bits.
fn unwritten_log(numbers: usize) -> Vec<i64> {
    let number = |place: usize| 5_000_000_007 - place as i64 % 8;
    (0..numbers).map(number).collect()
}

/// Labels as lent, alike, each of which fits one byte.
fn unwritten_labels(places: usize) -> Vec<u16> {
    (0..places).map(|place| 207 - (place % 7) as u16).collect()
}

/// The same, none of which fits one byte or has a byte of 0: a label of which only one byte is written shows.
fn unwritten_wide_labels(places: usize) -> Vec<u16> {
    const BOTH_BYTES: u16 = 0x0101;
    let label = |place: usize| u16::MAX - BOTH_BYTES * (place % 7) as u16;
    (0..places).map(label).collect()
}
