//! The stored cases: calls and answers, made only from the records of a file.

use crate::calls::{Answer, Call, Figure, Listing, Logging};
use crate::reading::{records, Record};
use reference::calls::{MOST_BINS, MOST_ENTRIES, MOST_PRINTED};
use std::fs;
use std::path::{Path, PathBuf};

/// The version of the format.
pub const FORMAT: i64 = 2;
/// The figures of an entry.
const ENTRY: usize = 8;
/// The figures of a line of measures: a pixel, the number, and four measures.
const MEASURED: usize = 8;

/// A case of the kit, its answer filled up with the zeros that are not written.
pub struct Kept {
    pub line: usize,
    pub call: Call,
    pub answer: Answer,
}

pub fn folder() -> PathBuf {
    Path::new(env!("CARGO_MANIFEST_DIR")).join("../vectors")
}

/// The cases of one file. The header must name the file's call and count its cases.
pub fn cases(name: &str, text: &str) -> Result<Vec<Kept>, String> {
    let records = records(text)?;
    let (header, records) = records.split_first().ok_or("it has no records")?;
    let mut kept = Vec::new();
    for record in records {
        let found = from_record(name, record);
        kept.extend(found.map_err(|wrong| format!("line {}: {wrong}", record.line))?);
    }
    let mut fields = Fields::of(header);
    let call: Vec<i64> = format!("kistrovu_{name}").bytes().map(i64::from).collect();
    let counted = kept.len() as i64;
    for (name, values) in [
        ("format", vec![FORMAT]),
        ("call", call),
        ("cases", vec![counted]),
    ] {
        if fields.list::<i64>(name)? != values {
            return Err(format!("the header's {name} should be {values:?}"));
        }
    }
    fields.end()?;
    Ok(kept)
}

fn from_record(name: &str, record: &Record) -> Result<Vec<Kept>, String> {
    let mut fields = Fields::of(record);
    let pairs = match name {
        "measures" => measures(&mut fields)?,
        "fit" => vec![fit(&mut fields)?],
        "verdict" => vec![verdict(&mut fields)?],
        "line_modes" => vec![modes(&mut fields, Call::LineModes)?],
        "ring_modes" => vec![modes(&mut fields, Call::RingModes)?],
        "join_log" => vec![join_log(&mut fields)?],
        "replay" => vec![replay(&mut fields)?],
        "card" => vec![card(&mut fields)?],
        "widen_labels" => vec![widen_labels(&mut fields)?],
        "print_card" => vec![print_card(&mut fields)?],
        "print_ground" => vec![print_ground(&mut fields)?],
        _ => return Err(format!("no call is kept in {name}")),
    };
    fields.end()?;
    let kept = pairs.into_iter().map(|(call, answer)| Kept {
        line: record.line,
        call,
        answer,
    });
    Ok(kept.collect())
}

type Pair = (Call, Answer);

/// Many cases in one record, a line each.
fn measures(fields: &mut Fields) -> Result<Vec<Pair>, String> {
    let values: Vec<i64> = fields.list("pixel")?;
    if values.is_empty() || !values.len().is_multiple_of(MEASURED) {
        return Err("a line of measures has eight values".to_string());
    }
    let names = ["number", "intensity", "saturation", "hue", "grey"];
    let one = |row: &[i64]| {
        let pixel: Vec<u8> = narrowed("pixel", &row[..3])?;
        let figures = names.iter().zip(&row[3..]);
        let answer = figures.map(|(name, &value)| figure(name, vec![value]));
        Ok((
            Call::Measures([pixel[0], pixel[1], pixel[2]]),
            answer.collect(),
        ))
    };
    values.chunks(MEASURED).map(one).collect()
}

fn fit(fields: &mut Fields) -> Result<Pair, String> {
    let histogram: Vec<u32> = fields.list("histogram")?;
    let rising = fields.flag("rising")?;
    let number = fields.one("number")?;
    let written = if number == 0 { histogram.len() } else { 0 };
    let answer = vec![
        figure("number", vec![number]),
        filled("sums", fields.list("sums")?, written, MOST_BINS)?,
        filled("lengths", fields.list("lengths")?, written, MOST_BINS)?,
    ];
    Ok((Call::Fit { histogram, rising }, answer))
}

fn verdict(fields: &mut Fields) -> Result<Pair, String> {
    let call = Call::Verdict {
        histogram: fields.list("histogram")?,
        rising: fields.flag("rising")?,
        closeness: fields.one("closeness")?,
    };
    Ok((call, fields.figures(&["number", "cost", "rejected"])?))
}

fn modes(fields: &mut Fields, call: fn(Listing) -> Call) -> Result<Pair, String> {
    let given = Listing {
        histogram: fields.list("histogram")?,
        closeness: fields.one("closeness")?,
        list: fields.list("list")?,
    };
    Ok((call(given), modes_answer(fields)?))
}

fn modes_answer(fields: &mut Fields) -> Result<Answer, String> {
    let mut answer = fields.figures(&["number", "separators"])?;
    answer.push(figure("list_after", fields.list("list_after")?));
    Ok(answer)
}

fn join_log(fields: &mut Fields) -> Result<Pair, String> {
    let given = logging(fields)?;
    let mut answer = fields.figures(&["number", "joins"])?;
    answer.push(figure("log_after", fields.list("log_after")?));
    Ok((Call::JoinLog(given), answer))
}

fn replay(fields: &mut Fields) -> Result<Pair, String> {
    let given = logging(fields)?;
    let list = fields.list("list")?;
    Ok((Call::Replay(given, list), modes_answer(fields)?))
}

fn logging(fields: &mut Fields) -> Result<Logging, String> {
    Ok(Logging {
        histogram: fields.list("histogram")?,
        closeness: fields.one("closeness")?,
        log: fields.list("log")?,
    })
}

fn card(fields: &mut Fields) -> Result<Pair, String> {
    let call = Call::Card {
        pixels: fields.list("pixels")?,
        closeness: fields.one("closeness")?,
        labels: fields.list("labels")?,
    };
    let mut answer = fields.figures(&["number", "len"])?;
    let written = ENTRY * answer[1].values[0] as usize;
    let entries = fields.list("entry")?;
    answer.push(filled("entry", entries, written, ENTRY * MOST_ENTRIES)?);
    answer.push(figure("labels_after", fields.list("labels_after")?));
    Ok((call, answer))
}

fn widen_labels(fields: &mut Fields) -> Result<Pair, String> {
    let call = Call::WidenLabels {
        narrow: fields.list("narrow")?,
        labels: fields.list("labels")?,
    };
    let mut answer = fields.figures(&["number"])?;
    answer.push(figure("labels_after", fields.list("labels_after")?));
    Ok((call, answer))
}

/// Each of the two texts stands in the record, or in a file of its own.
fn print_card(fields: &mut Fields) -> Result<Pair, String> {
    let text = fields.bytes("text", "text_file")?;
    Ok((Call::PrintCard(text), printed_answer(fields)?))
}

fn print_ground(fields: &mut Fields) -> Result<Pair, String> {
    let ground = fields.one("ground")?;
    Ok((Call::PrintGround(ground), printed_answer(fields)?))
}

fn printed_answer(fields: &mut Fields) -> Result<Answer, String> {
    let mut answer = fields.figures(&["number", "len"])?;
    let written = answer[1].values[0] as usize;
    let printed = fields.bytes("printed", "printed_file")?;
    let printed = printed.into_iter().map(i64::from).collect();
    answer.push(filled("printed", printed, written, MOST_PRINTED)?);
    Ok(answer)
}

fn figure(name: &'static str, values: Vec<i64>) -> Figure {
    Figure { name, values }
}

/// As many values as are written, and zeros up to the last place.
fn filled(
    name: &'static str,
    mut values: Vec<i64>,
    written: usize,
    places: usize,
) -> Result<Figure, String> {
    if values.len() != written || written > places {
        return Err(format!("{name} has {} values", values.len()));
    }
    values.resize(places, 0);
    Ok(figure(name, values))
}

fn narrowed<T: TryFrom<i64>>(name: &str, values: &[i64]) -> Result<Vec<T>, String> {
    let one = |&value: &i64| T::try_from(value).map_err(|_| format!("{name} cannot be {value}"));
    values.iter().map(one).collect()
}

/// The fields of a record, taken one after the other.
struct Fields<'a> {
    left: std::slice::Iter<'a, (String, Vec<i64>)>,
}

impl<'a> Fields<'a> {
    fn of(record: &'a Record) -> Self {
        Fields {
            left: record.fields.iter(),
        }
    }

    fn next_is(&self, wanted: &str) -> bool {
        (self.left.as_slice().first()).is_some_and(|(name, _)| name == wanted)
    }

    fn list<T: TryFrom<i64>>(&mut self, wanted: &str) -> Result<Vec<T>, String> {
        match self.left.next() {
            Some((name, values)) if name == wanted => narrowed(name, values),
            other => Err(format!(
                "{wanted} is missing before {:?}",
                other.map(|field| &field.0)
            )),
        }
    }

    fn one<T: TryFrom<i64> + Copy>(&mut self, wanted: &str) -> Result<T, String> {
        match self.list(wanted)?[..] {
            [value] => Ok(value),
            _ => Err(format!("{wanted} should have one value")),
        }
    }

    fn flag(&mut self, wanted: &str) -> Result<bool, String> {
        match self.one::<i64>(wanted)? {
            0 => Ok(false),
            1 => Ok(true),
            value => Err(format!("{wanted} cannot be {value}")),
        }
    }

    fn figures(&mut self, wanted: &[&'static str]) -> Result<Answer, String> {
        let one = |&name: &&'static str| Ok(figure(name, vec![self.one(name)?]));
        wanted.iter().map(one).collect()
    }

    /// The bytes of a text, or of the file in which it stands.
    fn bytes(&mut self, inside: &str, in_file: &str) -> Result<Vec<u8>, String> {
        if self.next_is(in_file) {
            self.file(in_file)
        } else {
            self.list(inside)
        }
    }

    /// The bytes of the file that is named, seen from the folder of the kit.
    fn file(&mut self, wanted: &str) -> Result<Vec<u8>, String> {
        let path = String::from_utf8(self.list(wanted)?).map_err(|wrong| wrong.to_string())?;
        fs::read(folder().join(&path)).map_err(|wrong| format!("{path}: {wrong}"))
    }

    fn end(&mut self) -> Result<(), String> {
        match self.left.next() {
            None => Ok(()),
            Some((name, _)) => Err(format!("{name} is left over")),
        }
    }
}
