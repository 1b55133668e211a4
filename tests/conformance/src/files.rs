//! The files of the kit: each case is run through both implementations, and written if they agree.

use crate::calls::{engine, reference, Answer, Call, Logging};
use crate::cases::{cards, fits, grounds, labels, logs, modes, pixels, texts, verdicts, Case};
use crate::kept::{folder, FORMAT};
use crate::writing::{numbers, quoted, rows, text};
use reference::logs::RECORD;
use std::fs;

/// A file without its ending, its cases, and what stands on top.
struct Planned {
    name: &'static str,
    about: &'static str,
    cases: Vec<Case>,
}

/// A file as it should be.
pub struct Made {
    pub name: &'static str,
    pub text: String,
}

pub fn made() -> Result<Vec<Made>, String> {
    planned()?
        .into_iter()
        .map(|file| {
            let text = file_text(&file).map_err(|wrong| format!("{}: {wrong}", file.name))?;
            Ok(Made {
                name: file.name,
                text,
            })
        })
        .collect()
}

fn planned() -> Result<Vec<Planned>, String> {
    let plan = |name, about, cases| Planned { name, about, cases };
    Ok(vec![
        plan(
            "measures",
            "The measures of a pixel. Each line is a case: R G B, number, intensity, saturation, hue, grey.",
            pixels::cases(),
        ),
        plan("fit", "The monotone fit of a histogram.", fits::cases()),
        plan("verdict", "The verdict on a histogram.", verdicts::cases()),
        plan("line_modes", "The modes of a line of bins.", modes::lines()),
        plan("ring_modes", "The modes of a ring of bins.", modes::rings()),
        plan(
            "join_log",
            "The log of the joins of a line of bins.",
            logs::logs(),
        ),
        plan(
            "replay",
            "The modes of a line of bins by a log of its joins.",
            logs::replays(),
        ),
        plan("card", "The card of an image.", cards::cases()),
        plan(
            "widen_labels",
            "Labels of one byte each, widened.",
            labels::cases(),
        ),
        plan(
            "print_card",
            "The card of a swatch as text.",
            texts::cases()?,
        ),
        plan("print_ground", "The line of a ground.", grounds::cases()),
    ])
}

fn file_text(file: &Planned) -> Result<String, String> {
    let mut records = String::new();
    let mut count = 0;
    for case in &file.cases {
        let lines = case_text(case).map_err(|wrong| format!("{}: {wrong}", case.what))?;
        records += &format!("\n# {}\n{lines}", case.what);
        count += case.calls.len();
    }
    let call = quoted(format!("kistrovu_{}", file.name).as_bytes());
    let title = "Kistrovu's conformance kit; README.md says how to read it.";
    let header = format!("format {FORMAT}\ncall {call}\ncases {count}\n");
    Ok(format!("# {title}\n# {}\n{header}{records}", file.about))
}

fn case_text(case: &Case) -> Result<String, String> {
    let mut lines = String::new();
    for call in &case.calls {
        let answer = agreed(call)?;
        lines += &match &case.kept_in {
            None => given_lines(call) + &answer_lines(call, &answer)?,
            Some(files) => kept_lines(files, &answer)?,
        };
    }
    Ok(lines)
}

/// The answer of both implementations, where it is one.
fn agreed(call: &Call) -> Result<Answer, String> {
    let (proved, second) = (engine(call), reference(call));
    match proved.iter().zip(&second).find(|(a, b)| a != b) {
        None => Ok(proved),
        Some((a, b)) => Err(format!(
            "the engine has {}, the second implementation {}",
            numbers(a.name, &a.values, 1).trim_end(),
            numbers(b.name, &b.values, 1).trim_end()
        )),
    }
}

fn given_lines(call: &Call) -> String {
    let one = |name, value: i64| numbers(name, &[value], 1);
    match call {
        // A pixel stands in one line with its measures.
        Call::Measures(_) => String::new(),
        Call::Fit { histogram, rising } => {
            numbers("histogram", &wide(histogram), 1) + &one("rising", (*rising).into())
        }
        Call::Verdict {
            histogram,
            rising,
            closeness,
        } => {
            numbers("histogram", &wide(histogram), 1)
                + &one("rising", (*rising).into())
                + &one("closeness", (*closeness).into())
        }
        Call::LineModes(given) | Call::RingModes(given) => {
            numbers("histogram", &wide(&given.histogram), 1)
                + &one("closeness", given.closeness.into())
                + &numbers("list", &wide(&given.list), 1)
        }
        Call::JoinLog(given) => logging_lines(given),
        Call::Replay(given, list) => logging_lines(given) + &numbers("list", &wide(list), 1),
        Call::Card {
            pixels,
            closeness,
            labels,
        } => {
            numbers("pixels", &wide(pixels), 3)
                + &one("closeness", (*closeness).into())
                + &numbers("labels", &wide(labels), 1)
        }
        Call::WidenLabels { narrow, labels } => {
            numbers("narrow", &wide(narrow), 1) + &numbers("labels", &wide(labels), 1)
        }
        Call::PrintCard(bytes) => text("text", bytes),
        Call::PrintGround(ground) => one("ground", (*ground).into()),
    }
}

/// The four numbers of a place of a log belong together.
fn logging_lines(given: &Logging) -> String {
    numbers("histogram", &wide(&given.histogram), 1)
        + &numbers("closeness", &[given.closeness.into()], 1)
        + &numbers("log", &given.log, RECORD)
}

/// The figures, without the zeros past the last bin, entry or byte.
fn answer_lines(call: &Call, answer: &Answer) -> Result<String, String> {
    if let Call::Measures(pixel) = call {
        let figures = answer.iter().flat_map(|figure| &figure.values);
        let row: Vec<i64> = wide(pixel).into_iter().chain(figures.copied()).collect();
        return Ok(rows("pixel", &row, row.len()));
    }
    let served = answer[0].values == [0];
    let len = len(answer);
    let mut lines = String::new();
    for figure in answer {
        let values = &figure.values;
        lines += &match (call, figure.name) {
            (Call::Fit { histogram, .. }, "sums" | "lengths") => {
                let bins = if served { histogram.len() } else { 0 };
                numbers(figure.name, before_zeros(values, bins)?, 1)
            }
            (_, "log_after") => numbers(figure.name, values, RECORD),
            (_, "entry") => rows("entry", before_zeros(values, 8 * len)?, 8),
            (_, "printed") => text("printed", &narrow(before_zeros(values, len)?)),
            _ => numbers(figure.name, values, 1),
        };
    }
    Ok(lines)
}

/// How many entries a card has, or a text bytes; 0 for what has neither.
fn len(answer: &Answer) -> usize {
    let len = answer.iter().find(|figure| figure.name == "len");
    len.map_or(0, |figure| figure.values[0] as usize)
}

/// The lines of a stored text. Its card is stored beside it; one that is turned down has none.
fn kept_lines([text_file, printed_file]: &[String; 2], answer: &Answer) -> Result<String, String> {
    let bytes = narrow(before_zeros(&answer[2].values, len(answer))?);
    let printed = if bytes.is_empty() {
        text("printed", &bytes)
    } else if fs::read(folder().join(printed_file)).ok() == Some(bytes) {
        text("printed_file", printed_file.as_bytes())
    } else {
        return Err(format!("{printed_file} is not what is printed"));
    };
    Ok(text("text_file", text_file.as_bytes())
        + &numbers("number", &answer[0].values, 1)
        + &numbers("len", &answer[1].values, 1)
        + &printed)
}

/// The first values; all that follow them must be zero.
fn before_zeros(values: &[i64], len: usize) -> Result<&[i64], String> {
    match values.split_at_checked(len) {
        Some((first, rest)) if rest.iter().all(|&value| value == 0) => Ok(first),
        _ => Err(format!("not zero past {len} places")),
    }
}

fn wide<T: Copy + Into<i64>>(values: &[T]) -> Vec<i64> {
    values.iter().map(|&value| value.into()).collect()
}

fn narrow(values: &[i64]) -> Vec<u8> {
    values.iter().map(|&value| value as u8).collect()
}
