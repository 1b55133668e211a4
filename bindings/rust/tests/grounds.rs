//! The grounds, compared with the two other lists of them: the header's names and numbers, and the sentences of
//! docs/METHOD.md.

mod common;

use common::file;
use kistrovu::{raw, Ground};
use std::collections::{BTreeMap, HashSet};
use std::error::Error;

/// The names and numbers of `enum kistrovu_ground`, without that of a served call.
fn of_the_header() -> BTreeMap<u32, String> {
    let header = file("include/kistrovu.h");
    let list = header.split("enum kistrovu_ground {").nth(1).unwrap();
    let list = list.split("};").next().unwrap();
    let rows = list.lines().filter_map(|line| {
        let (name, rest) = line.trim().strip_prefix("KISTROVU_")?.split_once(" = ")?;
        let digits: String = rest.chars().take_while(char::is_ascii_digit).collect();
        Some((digits.parse().unwrap(), name.to_string()))
    });
    rows.filter(|(number, _)| *number != 0).collect()
}

/// The first sentences of the rules, in lines as `- **G8** The closeness is below -10 or above 20.`
fn of_the_rules() -> BTreeMap<u32, String> {
    let rules = file("docs/METHOD.md");
    let rows = rules.lines().filter_map(|line| {
        let (number, words) = line.strip_prefix("- **G")?.split_once("** ")?;
        let sentence = words.split_once('.')?.0;
        Some((number.parse().ok()?, format!("{sentence}.")))
    });
    rows.collect()
}

fn listed<T: ToString>(what: impl Fn(&Ground) -> T) -> BTreeMap<u32, String> {
    let rows = Ground::LISTED
        .iter()
        .map(|g| (g.number(), what(g).to_string()));
    rows.collect()
}

#[test]
fn names_and_numbers_are_the_headers() {
    let names = listed(|ground| format!("{ground:?}").to_uppercase());
    assert_eq!(names, of_the_header());
}

#[test]
fn sentences_are_those_of_the_rules() {
    assert_eq!(listed(|ground| ground.sentence()), of_the_rules());
}

#[test]
fn numbers_are_1_to_11_and_20_in_order() {
    let numbers: Vec<u32> = Ground::LISTED.iter().map(|g| g.number()).collect();
    assert_eq!(numbers, (1..=11).chain([20]).collect::<Vec<u32>>());
}

#[test]
fn a_number_gives_the_ground_that_has_it() {
    for &ground in Ground::LISTED {
        assert_eq!(Ground::from_number(ground.number()), Some(ground));
    }
    assert_eq!(Ground::from_number(0), None);
    let above = [21, 256, 65_536, u32::MAX - 1, Ground::Unlisted.number()];
    for number in (12..20).chain(above) {
        assert_eq!(Ground::from_number(number), Some(Ground::Unlisted));
    }
}

#[test]
fn a_ground_is_shown_as_its_number_and_its_sentence() {
    let all = Ground::LISTED.iter().chain([&Ground::Unlisted]);
    let mut sentences = HashSet::new();
    for ground in all {
        let error: Box<dyn Error> = Box::new(*ground);
        let (number, sentence) = (ground.number(), ground.sentence());
        assert_eq!(error.to_string(), format!("{number}. {sentence}"));
        assert!(sentences.insert(sentence), "{sentence} is there twice");
    }
}

#[test]
fn limits_are_the_headers() {
    let header = file("include/kistrovu.h");
    let defined = |name: &str| {
        let begin = format!("#define KISTROVU_{name} ");
        let line = header.lines().find_map(|line| line.strip_prefix(&begin));
        line.expect(name).parse::<usize>().expect(name)
    };
    assert_eq!(defined("MOST_BINS"), raw::MOST_BINS);
    assert_eq!(defined("RECORD_NUMBERS"), raw::RECORD_NUMBERS);
    assert_eq!(defined("MOST_ENTRIES"), raw::MOST_ENTRIES);
    assert_eq!(defined("MOST_PRINTED"), raw::MOST_PRINTED);
}
