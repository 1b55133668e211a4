//! The grounds for turning a call down, in the words of docs/METHOD.md, and which of them the definitions have for a call.

use super::rattle::Source;
use super::tokens::tokens;
use std::collections::BTreeMap;

/// The numbers that docs/METHOD.md lists, in order.
const LISTED: [u64; 12] = [1, 2, 3, 4, 5, 6, 7, 8, 9, 10, 11, 20];

/// The grounds' words by their numbers, and for each call the numbers of those that concern it.
#[derive(Clone, Debug, PartialEq, Eq)]
pub struct Grounds {
    pub words: BTreeMap<u64, String>,
    pub calls: BTreeMap<String, Vec<u64>>,
}

/// The definition of each call's number. Those of a call that no ground concerns have none.
const NUMBERS: [(&str, Option<&str>); 12] = [
    ("kistrovu_version", None),
    ("kistrovu_measures", None),
    ("kistrovu_fit", Some("fit_number")),
    ("kistrovu_verdict", Some("verdict_number")),
    ("kistrovu_line_modes", Some("modes_number")),
    ("kistrovu_ring_modes", Some("modes_number")),
    ("kistrovu_join_log", Some("log_number")),
    ("kistrovu_replay", Some("replay_number")),
    ("kistrovu_card", Some("card_number")),
    ("kistrovu_widen_labels", Some("widen_number")),
    ("kistrovu_print_card", Some("text_number")),
    ("kistrovu_print_ground", None),
];

impl Grounds {
    /// Reads the lines `- **GNUMBER** words.`, `name .. = record { number = NUMBER; ..` and the definitions of the numbers.
    pub fn read(text: &str) -> Result<Self, String> {
        let worded: Vec<(u64, String)> = text.lines().filter_map(worded).collect();
        let numbers: Vec<u64> = worded.iter().map(|(number, _)| *number).collect();
        let defined: Vec<(String, u64)> = text.lines().filter_map(defined).collect();
        let found: Vec<u64> = defined.iter().map(|(_, number)| *number).collect();
        if numbers != LISTED || found != LISTED {
            return Err(format!("grounds {numbers:?} are listed, {found:?} defined"));
        }
        let names: BTreeMap<String, u64> = defined.into_iter().collect();
        let calls = NUMBERS.iter().map(|(call, name)| {
            let found = name.map_or(Ok(Vec::new()), |name| sequence(text, name, &names));
            Ok((call.to_string(), found?))
        });
        Ok(Grounds {
            words: worded.into_iter().collect(),
            calls: calls.collect::<Result<_, String>>()?,
        })
    }

    /// Every call's declaration comes after a comment that says `Grounds 6, 7` or `Ground 9`, or that no ground concerns it.
    pub fn are_said(&self, source: &Source, text: &str) -> Result<(), String> {
        for call in &source.calls {
            let name = &call.name;
            let expected = self.calls.get(name);
            let expected = expected.ok_or(format!("the grounds of {name} are not known"))?;
            let found = said(text, name).ok_or(format!("{name} is not declared"))?;
            if found != *expected {
                return Err(format!("the grounds of {name} are said to be {found:?}"));
            }
        }
        Ok(())
    }
}

/// The rule's first sentence. In a comment in C it begins small and has no full stop.
fn worded(line: &str) -> Option<(u64, String)> {
    let (number, words) = line.strip_prefix("- **G")?.split_once("** ")?;
    let words = words.split_once('.')?.0;
    let (first, rest) = words.split_at_checked(1)?;
    Some((number.parse().ok()?, first.to_lowercase() + rest))
}

fn defined(line: &str) -> Option<(String, u64)> {
    let (name, rest) = line.split_once(" = record { number = ")?;
    let name = name.split(' ').next()?;
    let number = rest.split_once(';')?.0;
    Some((name.to_string(), number.parse().ok()?))
}

/// The grounds in the definition of a number, those of a list that it names among them.
fn sequence(text: &str, name: &str, names: &BTreeMap<String, u64>) -> Result<Vec<u64>, String> {
    let right = definition(text, name).ok_or(format!("{name} is not defined"))?;
    let mut found = Vec::new();
    for word in tokens(right) {
        if let Some(number) = names.get(&word) {
            found.push(*number);
        } else if word.ends_with("_grounds") {
            found.extend(sequence(text, &word, names)?);
        }
    }
    Ok(found)
}

/// What a definition has behind its equals sign.
fn definition<'a>(text: &'a str, name: &str) -> Option<&'a str> {
    text.lines().find_map(|line| {
        let (left, right) = line.split_once(" = ")?;
        (left.split(' ').next() == Some(name)).then_some(right)
    })
}

/// The numbers in the last comment before a call's declaration that says something of grounds. An example may name the
/// call too, before it is declared.
fn said(text: &str, call: &str) -> Option<Vec<u64>> {
    let (before, _) = text.rsplit_once(&format!(" {call}("))?;
    let behind = |word: &str| Some(before.rfind(word)? + word.len());
    let listed = behind("Grounds ").max(behind("Ground "));
    let none = behind("o ground concerns it");
    let Some(start) = listed.filter(|_| none < listed) else {
        return Some(Vec::new());
    };
    let words = tokens(&before[start..]);
    let numbers = words.iter().filter(|word| *word != ",");
    Some(numbers.map_while(|word| word.parse().ok()).collect())
}
