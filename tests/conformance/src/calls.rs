//! The public calls in one form: what a call is given, and everything that comes back, from either implementation.

use reference::calls as second;
use reference::cards::Pixel;

/// A call and what it is given. Lists and labels are as lent.
pub enum Call {
    Measures(Pixel),
    Fit {
        histogram: Vec<u32>,
        rising: bool,
    },
    Verdict {
        histogram: Vec<u32>,
        rising: bool,
        closeness: i32,
    },
    LineModes(Listing),
    RingModes(Listing),
    JoinLog(Logging),
    /// With the list for the separators.
    Replay(Logging, Vec<u32>),
    Card {
        pixels: Vec<u8>,
        closeness: i32,
        labels: Vec<u16>,
    },
    WidenLabels {
        narrow: Vec<u8>,
        labels: Vec<u16>,
    },
    PrintCard(Vec<u8>),
    PrintGround(u32),
}

/// What either call for modes is given.
pub struct Listing {
    pub histogram: Vec<u32>,
    pub closeness: i32,
    pub list: Vec<u32>,
}

/// What either call on a log is given: the log is lent for writing, or for reading.
pub struct Logging {
    pub histogram: Vec<u32>,
    pub closeness: i32,
    pub log: Vec<i64>,
}

/// A figure that comes back. An array has all of its places, a list, log or label buffer is as it was left.
#[derive(Clone, Debug, PartialEq, Eq)]
pub struct Figure {
    pub name: &'static str,
    pub values: Vec<i64>,
}

/// All figures of one call, in the order in which they are written.
pub type Answer = Vec<Figure>;

fn figure<T: Copy + Into<i64>>(name: &'static str, values: &[T]) -> Figure {
    Figure {
        name,
        values: values.iter().map(|&value| value.into()).collect(),
    }
}

/// The figures of an entry. The two implementations have types of their own for it, with the same names inside.
macro_rules! entry_figures {
    ($entry:expr) => {
        [
            i64::from($entry.kind),
            i64::from($entry.hue),
            i64::from($entry.saturation),
            i64::from($entry.intensity),
            i64::from($entry.red),
            i64::from($entry.green),
            i64::from($entry.blue),
            i64::from($entry.count),
        ]
    };
}

/// The answer of the engine, through its static library.
pub fn engine(call: &Call) -> Answer {
    match call {
        Call::Measures([red, green, blue]) => {
            let a = engine::measures(*red, *green, *blue);
            let m = a.measures;
            measures_answer(a.number, [m.intensity, m.saturation, m.hue], m.grey)
        }
        Call::Fit { histogram, rising } => {
            let a = lent(histogram, |lent| engine::fit(lent, *rising));
            fit_answer(a.number, &a.sums, &a.lengths)
        }
        Call::Verdict {
            histogram,
            rising,
            closeness,
        } => {
            let a = lent(histogram, |lent| engine::verdict(lent, *rising, *closeness));
            verdict_answer(a.number, a.verdict.cost, a.verdict.rejected)
        }
        Call::LineModes(given) => engine_modes(given, engine::line_modes),
        Call::RingModes(given) => engine_modes(given, engine::ring_modes),
        Call::JoinLog(given) => engine_log(given),
        Call::Replay(given, list) => engine_replay(given, list.clone()),
        Call::Card {
            pixels,
            closeness,
            labels,
        } => {
            let mut labels = labels.clone();
            let a = lent(pixels, |lent| engine::card(lent, *closeness, &mut labels));
            let entries = a.entries.map(|entry| entry_figures!(entry));
            card_answer(a.number, a.len, entries.concat(), &labels)
        }
        Call::WidenLabels { narrow, labels } => {
            let mut labels = labels.clone();
            let number = lent(narrow, |lent| engine::widen_labels(lent, &mut labels));
            labels_answer(number, &labels)
        }
        Call::PrintCard(text) => {
            let a = lent(text, engine::print_card);
            printed_answer(a.number, a.len, &a.bytes)
        }
        Call::PrintGround(ground) => {
            let a = engine::print_ground(*ground);
            printed_answer(a.number, a.len, &a.bytes)
        }
    }
}

type EngineModes = fn(&mut [u32], i32, &mut [u32]) -> engine::ModesAnswer;

fn engine_modes(given: &Listing, modes: EngineModes) -> Answer {
    let mut list = given.list.clone();
    let call = |lent: &mut [u32]| modes(lent, given.closeness, &mut list);
    let a = lent(&given.histogram, call);
    modes_answer(a.number, a.separators, list)
}

fn engine_log(given: &Logging) -> Answer {
    let mut log = given.log.clone();
    let call = |lent: &mut [u32]| engine::join_log(lent, given.closeness, &mut log);
    let a = lent(&given.histogram, call);
    log_answer(a.number, a.joins, log)
}

fn engine_replay(given: &Logging, mut list: Vec<u32>) -> Answer {
    let a = lent(&given.histogram, |bins| {
        lent(&given.log, |log| {
            engine::replay(bins, given.closeness, log, &mut list)
        })
    });
    modes_answer(a.number, a.separators, list)
}

/// The answer of the second implementation.
pub fn reference(call: &Call) -> Answer {
    match call {
        Call::Measures([red, green, blue]) => {
            let a = second::measures(*red, *green, *blue);
            let m = a.measures;
            measures_answer(a.number, [m.intensity, m.saturation, m.hue], m.grey)
        }
        Call::Fit { histogram, rising } => {
            let a = second::fit(histogram, *rising);
            fit_answer(a.number, &a.sums, &a.lengths)
        }
        Call::Verdict {
            histogram,
            rising,
            closeness,
        } => {
            let a = second::verdict(histogram, *rising, *closeness);
            verdict_answer(a.number, a.verdict.cost, a.verdict.rejected)
        }
        Call::LineModes(given) => second_modes(given, second::line_modes),
        Call::RingModes(given) => second_modes(given, second::ring_modes),
        Call::JoinLog(given) => second_log(given),
        Call::Replay(given, list) => second_replay(given, list.clone()),
        Call::Card {
            pixels,
            closeness,
            labels,
        } => {
            let mut labels = labels.clone();
            let a = second::card(pixels, *closeness, &mut labels);
            let entries = a.entries.map(|entry| entry_figures!(entry));
            card_answer(a.number, a.len, entries.concat(), &labels)
        }
        Call::WidenLabels { narrow, labels } => {
            let mut labels = labels.clone();
            let number = second::widen_labels(narrow, &mut labels);
            labels_answer(number, &labels)
        }
        Call::PrintCard(text) => {
            let a = second::print_card(text);
            printed_answer(a.number, a.len, &a.bytes)
        }
        Call::PrintGround(ground) => {
            let a = second::print_ground(*ground);
            printed_answer(a.number, a.len, &a.bytes)
        }
    }
}

type SecondModes = fn(&[u32], i32, &mut [u32]) -> second::ModesAnswer;

fn second_modes(given: &Listing, modes: SecondModes) -> Answer {
    let mut list = given.list.clone();
    let a = modes(&given.histogram, given.closeness, &mut list);
    modes_answer(a.number, a.separators, list)
}

fn second_log(given: &Logging) -> Answer {
    let mut log = given.log.clone();
    let a = second::join_log(&given.histogram, given.closeness, &mut log);
    log_answer(a.number, a.joins, log)
}

fn second_replay(given: &Logging, mut list: Vec<u32>) -> Answer {
    let a = second::replay(&given.histogram, given.closeness, &given.log, &mut list);
    modes_answer(a.number, a.separators, list)
}

/// Lends a copy to a call of the engine, which may read it only.
fn lent<T: Clone + PartialEq, A>(values: &[T], call: impl FnOnce(&mut [T]) -> A) -> A {
    let mut lent = values.to_vec();
    let answer = call(&mut lent);
    assert!(lent == values, "the engine wrote to what it may only read");
    answer
}

fn measures_answer(number: u32, bins: [u8; 3], grey: impl Into<i64>) -> Answer {
    vec![
        figure("number", &[number]),
        figure("intensity", &bins[..1]),
        figure("saturation", &bins[1..2]),
        figure("hue", &bins[2..]),
        figure("grey", &[grey.into()]),
    ]
}

fn fit_answer(number: u32, sums: &[u32], lengths: &[u32]) -> Answer {
    vec![
        figure("number", &[number]),
        figure("sums", sums),
        figure("lengths", lengths),
    ]
}

fn verdict_answer(number: u32, cost: i64, rejected: impl Into<i64>) -> Answer {
    vec![
        figure("number", &[number]),
        figure("cost", &[cost]),
        figure("rejected", &[rejected.into()]),
    ]
}

fn modes_answer(number: u32, separators: u32, list: Vec<u32>) -> Answer {
    vec![
        figure("number", &[number]),
        figure("separators", &[separators]),
        figure("list_after", &list),
    ]
}

fn log_answer(number: u32, joins: u32, log: Vec<i64>) -> Answer {
    vec![
        figure("number", &[number]),
        figure("joins", &[joins]),
        figure("log_after", &log),
    ]
}

fn card_answer(number: u32, len: u32, entries: Vec<i64>, labels: &[u16]) -> Answer {
    vec![
        figure("number", &[number]),
        figure("len", &[len]),
        figure("entry", &entries),
        figure("labels_after", labels),
    ]
}

fn labels_answer(number: u32, labels: &[u16]) -> Answer {
    vec![figure("number", &[number]), figure("labels_after", labels)]
}

fn printed_answer(number: u32, len: u32, bytes: &[u8]) -> Answer {
    vec![
        figure("number", &[number]),
        figure("len", &[len]),
        figure("printed", bytes),
    ]
}
