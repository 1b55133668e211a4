//! Times the engine, through its static library, against a Rust program written for speed (`fast.rs`), in one run.
//!
//! In `bench/`, after `tools/library` at the repository's root:
//!
//!     cargo run --release
//!
//! KISTROVU_LIB names another folder to take `libkistrovu.a` from; `--only cards` times only cards, and `--once N` makes the
//! card of cloth N (from 1) once each way and times nothing, for a program that counts instructions. `--climb` looks for a
//! line that takes long (`climb.rs`). Both programs are first compared with the reference; a wrong answer is not timed and
//! ends the run. Where the reference would take too long for a line, shorter lines of the same kind are compared with it,
//! and at full length the engine is compared with the Rust program. The two take turns in short rounds, and the figures are
//! medians over the rounds: times of different runs do not compare well, ratios within one run do.

mod cards;
mod cases;
mod climb;
mod fast;
mod fast_cards;
mod fast_weight;
mod imagequant;
mod others;
mod picture;

use cases::{Case, LineCase};
use engine::IntoRaw;
use reference::calls::FitAnswer;
use reference::test::Verdict;
use std::hint::black_box;
use std::process::ExitCode;
use std::time::Instant;

const MOST_ROUNDS: f64 = 41.0;
const LEAST_ROUNDS: f64 = 5.0;
const ROUND_NANOSECONDS: f64 = 4e6;
/// Calls that take longer than a round get fewer rounds.
const CASE_NANOSECONDS: f64 = 4e9;
pub const CLOSENESS: i32 = 0;
const RISING: bool = true;
/// The columns of what is timed.
pub const NAME_WIDTH: usize = 36;

fn main() -> ExitCode {
    let words: Vec<String> = std::env::args().skip(1).collect();
    let words: Vec<&str> = words.iter().map(String::as_str).collect();
    let only_cards = match words[..] {
        [] => false,
        ["--only", "cards"] => true,
        ["--once", number] => return cards::once(number),
        ["--climb", ref rest @ ..] if rest.len() <= 2 => return climb::run(rest),
        _ => {
            eprintln!("usage: bench [--only cards | --once N | --climb [SECONDS [SEED]]]");
            return ExitCode::from(2);
        }
    };
    let (mut fits, mut verdicts, mut lines) = (cases::fits(), cases::verdicts(), cases::lines());
    if only_cards {
        fits.clear();
        verdicts.clear();
        lines.clear();
    }
    let cloths = cards::cloths();
    let wrong: Vec<String> = fits
        .iter()
        .filter_map(wrong_fit)
        .chain(verdicts.iter().filter_map(wrong_verdict))
        .chain(lines.iter().filter_map(wrong_line))
        .chain(cloths.iter().filter_map(cards::wrong))
        .collect();
    if !wrong.is_empty() {
        eprintln!("not timed, wrong: {}", wrong.join("; "));
        return ExitCode::FAILURE;
    }
    print_heading();
    for case in fits {
        time_fit(case);
    }
    for case in verdicts {
        time_verdict(case);
    }
    for case in lines {
        time_line(case.line);
    }
    cards::time(&cloths);
    ExitCode::SUCCESS
}

fn wrong_fit(case: &Case) -> Option<String> {
    let expected = reference::calls::fit(&case.histogram, RISING);
    let (sums, lengths) = fast::fit(&case.histogram, RISING);
    let fitted = FitAnswer {
        number: 0,
        sums,
        lengths,
    };
    let answer = engine::fit(&mut case.histogram.clone(), RISING);
    if fitted != expected {
        Some(format!("Rust fit of {}", case.name))
    } else if answer != expected.into_raw() {
        Some(format!("engine's fit of {}", case.name))
    } else {
        None
    }
}

/// Both directions and several closenesses, though only one of each is timed.
fn wrong_verdict(case: &Case) -> Option<String> {
    for rising in [true, false] {
        for closeness in [CLOSENESS, -10, 7, 20] {
            let expected = reference::calls::verdict(&case.histogram, rising, closeness);
            let (cost, rejected) = fast::verdict(&case.histogram, rising, closeness);
            let answer = engine::verdict(&mut case.histogram.clone(), rising, closeness);
            if expected.number != 0 || (Verdict { cost, rejected }) != expected.verdict {
                return Some(format!("Rust verdict of {}", case.name));
            } else if answer != expected.into_raw() {
                return Some(format!("engine's verdict of {}", case.name));
            }
        }
    }
    None
}

/// Several closenesses, though only one is timed.
fn wrong_line(case: &LineCase) -> Option<String> {
    let LineCase { line, smaller } = case;
    for closeness in [CLOSENESS, -10, 7, 20] {
        let mut list = vec![0; smaller.len()];
        let expected = reference::calls::line_modes(smaller, closeness, &mut list);
        list.truncate(expected.separators as usize);
        if expected.number != 0 || fast_separators(smaller, closeness) != list {
            return Some(format!(
                "Rust modes of {}, {} bins",
                line.name,
                smaller.len()
            ));
        }
        if engine_separators(smaller, closeness) != list {
            return Some(format!(
                "engine's modes of {}, {} bins",
                line.name,
                smaller.len()
            ));
        }
    }
    let same = fast_separators(&line.histogram, CLOSENESS)
        == engine_separators(&line.histogram, CLOSENESS);
    (!same).then(|| format!("modes of {}: the two differ", line.name))
}

fn fast_separators(histogram: &[u32], closeness: i32) -> Vec<u32> {
    let mut list = vec![0; histogram.len()];
    let count = fast::line_modes(histogram, closeness, &mut list);
    list.truncate(count);
    list
}

/// None when the call is turned down: a line has two separators or more.
fn engine_separators(histogram: &[u32], closeness: i32) -> Vec<u32> {
    let mut list = vec![0; histogram.len()];
    let answer = engine::line_modes(&mut histogram.to_vec(), closeness, &mut list);
    list.truncate(answer.separators as usize);
    list
}

fn time_fit(case: Case) {
    let mut lent = case.histogram.clone();
    let times = medians(
        || {
            black_box(engine::fit(black_box(&mut lent), RISING));
        },
        || {
            black_box(fast::fit(black_box(&case.histogram), RISING));
        },
    );
    print("fit", case.name, times, "");
}

fn time_verdict(case: Case) {
    let mut lent = case.histogram.clone();
    let times = medians(
        || {
            black_box(engine::verdict(black_box(&mut lent), RISING, CLOSENESS));
        },
        || {
            black_box(fast::verdict(black_box(&case.histogram), RISING, CLOSENESS));
        },
    );
    let (parts, spared) = fast::spared(&case.histogram, RISING);
    let share = 100.0 * spared as f64 / parts as f64;
    print(
        "verdict",
        case.name,
        times,
        &format!("{share:.1}% of {parts} parts without a logarithm"),
    );
}

fn time_line(case: Case) {
    let mut lent = case.histogram.clone();
    let (mut first, mut second) = (vec![0; lent.len()], vec![0; lent.len()]);
    let times = medians(
        || {
            black_box(engine::line_modes(
                black_box(&mut lent),
                CLOSENESS,
                &mut first,
            ));
        },
        || {
            black_box(fast::line_modes(
                black_box(&case.histogram),
                CLOSENESS,
                &mut second,
            ));
        },
    );
    print("line", case.name, times, "");
}

/// Nanoseconds of one call, of the first and of the second, and the ratio: each a median over the rounds. Which of the
/// two comes first in a round changes, since a machine that is shared may not treat both places alike.
pub fn medians(mut first: impl FnMut(), mut second: impl FnMut()) -> [f64; 3] {
    let call = per_call(1, &mut first).max(1.0);
    let calls = (ROUND_NANOSECONDS / call).ceil() as u32;
    let rounds = (CASE_NANOSECONDS / call).clamp(LEAST_ROUNDS, MOST_ROUNDS) as usize;
    let mut figures = [const { Vec::new() }; 3];
    for round in 0..rounds {
        let early = (round % 2 == 0).then(|| per_call(calls, &mut first));
        let b = per_call(calls, &mut second);
        let a = early.unwrap_or_else(|| per_call(calls, &mut first));
        for (list, figure) in figures.iter_mut().zip([a, b, a / b]) {
            list.push(figure);
        }
    }
    figures.map(|mut list| {
        list.sort_unstable_by(f64::total_cmp);
        list[rounds / 2]
    })
}

fn per_call(calls: u32, call: &mut impl FnMut()) -> f64 {
    let start = Instant::now();
    for _ in 0..calls {
        call();
    }
    start.elapsed().as_nanos() as f64 / f64::from(calls)
}

fn print_heading() {
    println!(
        "{:NAME_WIDTH$} {:>12} {:>12} {:>7}",
        "", "engine, ns", "Rust, ns", "ratio"
    );
}

pub fn print(call: &str, name: &str, [engine, fast, ratio]: [f64; 3], share: &str) {
    println!(
        "{:NAME_WIDTH$} {engine:12.0} {fast:12.0} {ratio:7.2}  {share}",
        format!("{call}, {name}")
    );
}
