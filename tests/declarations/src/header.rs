//! The other direction: what the header has must be in the source, so that nothing in it goes unchecked.

use super::c::struct_name;
use super::grounds::Grounds;
use super::rattle::{Source, Struct};
use super::same;
use super::tokens::{tokens, without_comments, Cursor};
use std::collections::BTreeMap;
use std::iter::once;

/// What a scan of the header finds, in its order.
#[derive(Clone, Debug, Default, PartialEq, Eq)]
pub struct Header {
    pub macros: Vec<String>,
    pub structs: Vec<(String, Vec<String>)>,
    pub calls: Vec<String>,
    pub grounds: Vec<Enumerator>,
    pub sizes: Vec<(String, u64)>,
}

#[derive(Clone, Debug, PartialEq, Eq)]
pub struct Enumerator {
    pub name: String,
    pub number: u64,
    pub words: String,
}

/// The guard against a second inclusion, which stands for nothing.
const GUARD: &str = "KISTROVU_H";

impl Header {
    pub fn read(text: &str) -> Result<Self, String> {
        let bare = without_comments(text, "/*", "*/");
        let found = tokens(&bare);
        let mut header = Header {
            macros: macros(&bare),
            grounds: enumerators(text)?,
            sizes: text.lines().filter_map(size).collect(),
            ..Header::default()
        };
        let mut cursor = Cursor::new(&found);
        while !cursor.is_at_end() {
            let named = cursor.passes("struct");
            let name = cursor.take();
            if named && cursor.passes("{") {
                let fields = fields(&mut cursor)?;
                header.structs.push((name.to_string(), fields));
            } else if !named && name.starts_with("kistrovu_") && cursor.sees("(") {
                header.calls.push(name.to_string());
            }
        }
        Ok(header)
    }

    /// Calls, structs with their fields, macros and grounds are those of the source, each once, and no others.
    pub fn agrees(
        &self,
        source: &Source,
        values: &[(String, i64)],
        grounds: &Grounds,
    ) -> Result<(), String> {
        let calls = source.calls.iter().map(|call| call.name.clone());
        same("calls", &self.calls, calls)?;
        let structs = source.structs.iter();
        same("structs", &self.structs, structs.map(expected_struct))?;
        let names = values.iter().map(|(name, _)| name.clone());
        same("macros", &self.macros, names)?;
        let answers = source.structs.iter().filter(|made| source.is_answer(made));
        let sizes = answers.map(|made| (struct_name(&made.name), source.layout(made).size));
        same("sizes in comments", &self.sizes, sizes)?;
        self.grounds_agree(&grounds.words)?;
        figures_agree(&grounds.words, values)
    }

    /// One enumerator for 0 and one for each ground, in the order of their numbers, and beside each ground its words.
    fn grounds_agree(&self, words: &BTreeMap<u64, String>) -> Result<(), String> {
        let numbers: Vec<u64> = self.grounds.iter().map(|found| found.number).collect();
        let expected: Vec<u64> = once(0).chain(words.keys().copied()).collect();
        if numbers != expected {
            return Err(format!("the numbers of the grounds are {numbers:?}"));
        }
        let mut named = self.grounds.iter().skip(1).zip(words.values());
        match named.find(|(found, words)| found.words != **words) {
            Some((found, _)) => Err(format!("the words of {} are others", found.name)),
            None => Ok(()),
        }
    }
}

/// The grounds whose words have the figure of a limit.
const FIGURES: [(u64, &str); 6] = [
    (2, "KISTROVU_MOST_SWATCH_PIXELS"),
    (5, "KISTROVU_MOST_PIXELS"),
    (6, "KISTROVU_MOST_BINS"),
    (8, "KISTROVU_LEAST_CLOSENESS"),
    (8, "KISTROVU_MOST_CLOSENESS"),
    (11, "KISTROVU_MOST_ENTRIES"),
];

fn figures_agree(words: &BTreeMap<u64, String>, values: &[(String, i64)]) -> Result<(), String> {
    for (number, name) in FIGURES {
        let value = values.iter().find(|(other, _)| other == name);
        let (_, value) = value.ok_or(format!("{name} is not known"))?;
        let plain = words[&number].replace(',', "");
        if !plain.split(' ').any(|word| word == value.to_string()) {
            return Err(format!("the words of ground {number} have not {name}"));
        }
    }
    Ok(())
}

fn expected_struct(made: &Struct) -> (String, Vec<String>) {
    let fields = made.fields.iter().map(|field| field.name.clone());
    (struct_name(&made.name), fields.collect())
}

/// The names that are defined, except the guard.
fn macros(text: &str) -> Vec<String> {
    let defined = text.lines().filter_map(|line| {
        let line = line.trim_start().strip_prefix('#')?;
        line.trim_start().strip_prefix("define")
    });
    let names = defined.filter_map(|rest| tokens(rest).into_iter().next());
    names.filter(|name| name != GUARD).collect()
}

/// The names of the fields of a struct, whose types are the compiler's to check.
fn fields(cursor: &mut Cursor) -> Result<Vec<String>, String> {
    let mut fields = Vec::new();
    let mut last = "";
    while !cursor.passes("}") {
        match cursor.take() {
            "" => return Err("a struct has no end".to_string()),
            ";" => fields.push(last.to_string()),
            "[" => {
                cursor.word()?;
                cursor.expect("]")?;
            }
            "," => return Err("a field is expected to stand by itself".to_string()),
            word => last = word,
        }
    }
    Ok(fields)
}

/// A line `struct NAME { /* SIZE bytes */`, as those of answers are.
fn size(line: &str) -> Option<(String, u64)> {
    let (name, comment) = line.strip_prefix("struct ")?.split_once(" { /* ")?;
    let figure = comment.strip_suffix(" bytes */")?.replace(',', "");
    Some((name.to_string(), figure.parse().ok()?))
}

/// The lines `NAME = NUMBER, /* words */` of the grounds.
fn enumerators(text: &str) -> Result<Vec<Enumerator>, String> {
    let (_, rest) = text
        .split_once("enum kistrovu_ground {")
        .ok_or("the grounds are missing")?;
    let (body, _) = rest.split_once('}').ok_or("the grounds have no end")?;
    let lines = body.lines().map(str::trim).filter(|line| !line.is_empty());
    lines.map(enumerator).collect()
}

fn enumerator(line: &str) -> Result<Enumerator, String> {
    let not_one = || format!("`{line}` is no ground");
    let (code, comment) = line.split_once("/*").unwrap_or((line, "*/"));
    let words = comment.strip_suffix("*/").ok_or_else(not_one)?;
    let code = code.trim().trim_end_matches(',');
    let (name, number) = code.split_once(" = ").ok_or_else(not_one)?;
    Ok(Enumerator {
        name: name.to_string(),
        number: number.parse().map_err(|_| not_one())?,
        words: words.trim().to_string(),
    })
}

/// The header's macros, and the figures of the source that they stand for.
pub fn values(source: &Source) -> Result<Vec<(String, i64)>, String> {
    let named = |name: &str, value| (format!("KISTROVU_{name}"), value);
    let version = source.constant("VERSION")?;
    Ok(vec![
        named("VERSION", version),
        named("VERSION_MAJOR", version / 10_000),
        named("VERSION_MINOR", version / 100 % 100),
        named("VERSION_PATCH", version % 100),
        named("MOST_BINS", source.length("FitAnswer", "sums")? as i64),
        named("RECORD_NUMBERS", source.constant("RECORD_NUMBERS")?),
        named("LEAST_CLOSENESS", source.constant("LEAST_CLOSENESS")?),
        named("MOST_CLOSENESS", source.constant("MOST_CLOSENESS")?),
        named("MOST_PIXELS", source.constant("MOST_PIXELS")?),
        named("MOST_ENTRIES", source.constant("MOST_ENTRIES")?),
        named("MOST_SWATCH_PIXELS", source.constant("MOST_SWATCH_PIXELS")?),
        // The program reads one byte more, to see that a text is too long.
        named("MOST_TEXT", source.constant("MOST_TEXT")? - 1),
        named("MOST_PRINTED", source.constant("PRINTED_MOST")?),
    ])
}
