//! Cards of noisy cloths: the engine against the Rust program, and other programs that reduce colours.

use crate::fast_cards::{self, Scratch};
use crate::{imagequant, medians, others, print, CLOSENESS};
use cloths::random::Random;
use cloths::swatch::Swatch;
use cloths::yarns::{woven, yarns};
use engine::IntoRaw;
use reference::calls::CardAnswer;
use std::hint::black_box;
use std::process::ExitCode;

/// How cloths are made: each of these numbers of yarns at each side.
struct Kind {
    /// What the names of such cloths end with.
    ending: &'static str,
    noise: u32,
    yarns: &'static [usize],
    /// Those with so many yarns are given to the other programs too.
    shown: Option<usize>,
}

const KINDS: [Kind; 2] = [
    // So little noise that a grey yarn's pixels all stay grey.
    Kind {
        ending: "",
        noise: 2,
        yarns: &[3, 5, 8, 12],
        shown: Some(8),
    },
    // So much that many of a grey yarn's pixels come out coloured, in any hue.
    Kind {
        ending: ", noise 12",
        noise: 12,
        yarns: &[5, 8],
        shown: None,
    },
];
const SIDES: [usize; 2] = [128, 256];

pub struct Cloth {
    name: String,
    swatch: Swatch,
    shown: bool,
}

/// Those of the first kind come first, so that a new kind leaves the numbers of the others as they are.
pub fn cloths() -> Vec<Cloth> {
    let mut cloths = Vec::new();
    for kind in KINDS {
        for side in SIDES {
            cloths.extend(kind.yarns.iter().map(|&count| kind.cloth(side, count)));
        }
    }
    cloths
}

impl Kind {
    /// Cloths of as many yarns have the same yarns, whatever the side and the noise.
    fn cloth(&self, side: usize, count: usize) -> Cloth {
        let mut random = Random::new(count as u64);
        let yarns = yarns(&mut random, count);
        Cloth {
            name: format!("{side} x {side}, {count} yarns{}", self.ending),
            swatch: woven(&mut random, side, side, &yarns, self.noise),
            shown: self.shown == Some(count),
        }
    }
}

/// Several closenesses, though only one is timed.
pub fn wrong(cloth: &Cloth) -> Option<String> {
    let bytes = cloth.swatch.bytes();
    for closeness in [CLOSENESS, -10, 7, 20] {
        let mut labels = vec![0; cloth.swatch.pixels.len()];
        let expected = reference::calls::card(&bytes, closeness, &mut labels);
        let (fast, fast_labels) = fast_card(&bytes, closeness);
        if expected.number != 0 || (&fast, &fast_labels) != (&expected, &labels) {
            return Some(format!("Rust card of {}", cloth.name));
        }
        let mut engine_labels = vec![0; labels.len()];
        let answer = engine::card(&mut bytes.clone(), closeness, &mut engine_labels);
        if answer != expected.into_raw() || engine_labels != labels {
            return Some(format!("engine's card of {}", cloth.name));
        }
    }
    None
}

fn fast_card(bytes: &[u8], closeness: i32) -> (CardAnswer, Vec<u16>) {
    let mut labels = vec![0; bytes.len() / 3];
    let answer = fast_cards::card(bytes, closeness, &mut labels, &mut Scratch::default());
    (answer, labels)
}

/// Makes the card of one cloth with the engine and with the Rust program, and prints the cloth's name.
pub fn once(number: &str) -> ExitCode {
    let cloths = cloths();
    let number = number.parse::<usize>().unwrap_or(0);
    let Some(cloth) = number.checked_sub(1).and_then(|index| cloths.get(index)) else {
        eprintln!("there are {} cloths", cloths.len());
        return ExitCode::from(2);
    };
    let mut bytes = cloth.swatch.bytes();
    let mut labels = vec![0; cloth.swatch.pixels.len()];
    black_box(engine::card(&mut bytes, CLOSENESS, &mut labels));
    black_box(fast_card(&bytes, CLOSENESS));
    println!("{}", cloth.name);
    ExitCode::SUCCESS
}

pub fn time(cloths: &[Cloth]) {
    let times: Vec<f64> = cloths.iter().map(time_card).collect();
    for (cloth, engine) in cloths.iter().zip(times) {
        if cloth.shown {
            let entries = fast_card(&cloth.swatch.bytes(), CLOSENESS).0.len;
            imagequant::time(&cloth.name, &cloth.swatch, entries);
            others::time(&cloth.name, &cloth.swatch, entries, engine);
        }
    }
}

/// The engine's time is handed back.
fn time_card(cloth: &Cloth) -> f64 {
    let bytes = cloth.swatch.bytes();
    let pixels = cloth.swatch.pixels.len();
    let mut lent = bytes.clone();
    let (mut first, mut second) = (vec![0; pixels], vec![0; pixels]);
    let mut scratch = Scratch::default();
    let times = medians(
        || {
            black_box(engine::card(black_box(&mut lent), CLOSENESS, &mut first));
        },
        || {
            black_box(fast_cards::card(
                black_box(&bytes),
                CLOSENESS,
                &mut second,
                &mut scratch,
            ));
        },
    );
    let entries = fast_card(&bytes, CLOSENESS).0.len;
    let [engine, fast] = [times[0], times[1]].map(|time| time / pixels as f64);
    let each = format!("{entries} entries; of {pixels} pixels each {engine:.1} and {fast:.1}");
    print("card", &cloth.name, times, &each);
    times[0]
}
