//! The kit as stored: it is what the maker makes, and read back it holds for both implementations.

use conformance::calls::{engine, reference, Answer, Call, Listing, Logging};
use conformance::files::made;
use conformance::kept::{cases, folder, FORMAT};
use reference::calls::Joins;
use reference::logs::{Logged, RECORD};
use reference::rings::opening;
use reference::turns::{lowest_bins, turned, turned_list};
use std::cmp::Ordering;
use std::collections::{BTreeMap, BTreeSet};
use std::fs;

/// A file, the least number of its cases, and the least for each number that its call can give.
type Least = (&'static str, usize, &'static [(i64, usize)]);

const LEAST: [Least; 11] = [
    ("measures", 1300, &[(0, 1300)]),
    ("fit", 300, &[(0, 250), (6, 12), (7, 24)]),
    ("verdict", 500, &[(0, 450), (6, 16), (7, 30), (8, 14)]),
    (
        "line_modes",
        400,
        &[(0, 350), (6, 12), (7, 16), (8, 7), (10, 4)],
    ),
    (
        "ring_modes",
        350,
        &[(0, 300), (6, 12), (7, 16), (8, 7), (10, 4)],
    ),
    (
        "join_log",
        250,
        &[(0, 220), (6, 8), (7, 8), (8, 6), (10, 6)],
    ),
    (
        "replay",
        500,
        &[(0, 220), (6, 8), (7, 8), (8, 6), (10, 4), (20, 250)],
    ),
    (
        "card",
        180,
        &[(0, 140), (4, 13), (5, 5), (8, 7), (9, 10), (11, 4)],
    ),
    ("widen_labels", 90, &[(0, 65), (9, 25)]),
    (
        "print_card",
        300,
        &[(0, 70), (1, 60), (2, 20), (3, 120), (11, 3)],
    ),
    ("print_ground", 50, &[(0, 50)]),
];
/// The fewest rings whose list is not in the order from the opening.
const LEAST_ROTATED: usize = 30;
/// The fewest lines of whose joins something shows in a file on logs.
const LEAST_SHOWN: usize = 10;
/// The most bytes of a file, so that it can be read. Two cards of about 1,000 entries take a quarter of them.
const MOST_BYTES: usize = 400_000;

fn kept_text(name: &str) -> String {
    let path = folder().join(format!("{name}.txt"));
    fs::read_to_string(&path).unwrap_or_else(|wrong| panic!("{}: {wrong}", path.display()))
}

/// How many cases hold, or the first that does not.
fn check(name: &str, text: &str, answers: fn(&Call) -> Answer) -> Result<usize, String> {
    let kept = cases(name, text)?;
    for case in &kept {
        let found = answers(&case.call);
        if found != case.answer {
            let differ = found.iter().zip(&case.answer).find(|(a, b)| a != b);
            return Err(format!("the case of line {}: {differ:?}", case.line));
        }
    }
    Ok(kept.len())
}

#[test]
fn files_are_as_made() {
    for file in made().expect("both implementations agree") {
        assert!(kept_text(file.name) == file.text, "{}.txt", file.name);
    }
}

#[test]
fn there_are_no_other_files() {
    let mut expected: Vec<String> = LEAST
        .iter()
        .map(|(name, ..)| format!("{name}.txt"))
        .collect();
    expected.extend([".gitattributes", "README.md"].map(String::from));
    expected.sort_unstable();
    let files = fs::read_dir(folder()).expect("the folder can be read");
    let name = |file: std::io::Result<fs::DirEntry>| {
        let file = file.expect("the folder can be read");
        file.file_name().to_string_lossy().into_owned()
    };
    let mut found: Vec<String> = files.map(name).collect();
    found.sort_unstable();
    assert_eq!(found, expected);
}

#[test]
fn files_are_plain_text() {
    for (name, ..) in LEAST {
        let text = kept_text(name);
        let plain = |byte: u8| byte == b'\n' || (b' '..=b'~').contains(&byte);
        assert!(text.bytes().all(plain), "{name}");
        assert!(text.len() <= MOST_BYTES, "{name}: {} bytes", text.len());
    }
}

#[test]
fn every_case_holds_of_the_engine() {
    for (name, least, _) in LEAST {
        let held =
            check(name, &kept_text(name), engine).unwrap_or_else(|wrong| panic!("{name}: {wrong}"));
        assert!(held >= least, "{name}: {held} cases");
        println!("{name}: {held} cases");
    }
}

#[test]
fn every_case_holds_of_the_second_implementation() {
    for (name, least, _) in LEAST {
        let held = check(name, &kept_text(name), reference)
            .unwrap_or_else(|wrong| panic!("{name}: {wrong}"));
        assert!(held >= least, "{name}: {held} cases");
    }
}

/// And no other number is given.
#[test]
fn every_ground_is_met_often_enough() {
    for (name, _, least) in LEAST {
        let mut found: BTreeMap<i64, usize> = BTreeMap::new();
        for case in cases(name, &kept_text(name)).expect(name) {
            *found.entry(case.answer[0].values[0]).or_default() += 1;
        }
        let numbers: Vec<i64> = least.iter().map(|&(number, _)| number).collect();
        assert_eq!(found.keys().copied().collect::<Vec<_>>(), numbers, "{name}");
        for (number, least) in least {
            assert!(
                found[number] >= *least,
                "{name}, number {number}: {}",
                found[number]
            );
        }
    }
}

/// Whether separators lie on both sides of the opening: only then does it show if a list goes from there.
fn is_rotated(given: &Listing, answer: &Answer) -> bool {
    let counts: Vec<u64> = given.histogram.iter().map(|&count| count.into()).collect();
    let separators = answer[1].values[0] as usize;
    let list = &answer[2].values[..separators];
    let before = |&bin: &i64| bin < opening(&counts) as i64;
    list.iter().any(before) && !list.iter().all(before)
}

#[test]
fn many_rings_are_not_listed_from_the_opening() {
    let kept = cases("ring_modes", &kept_text("ring_modes")).expect("ring_modes");
    let rotated = kept.iter().filter(|case| match &case.call {
        Call::RingModes(given) => is_rotated(given, &case.answer),
        _ => false,
    });
    let rotated = rotated.count();
    assert!(rotated >= LEAST_ROTATED, "{rotated}");
}

/// What turning leaves as it is: of all the turns of a ring the one that comes first in order, and the closeness.
type Unturned = (Vec<u32>, i32);
/// By how many bins each such ring is turned back in the kit, and its lists, turned back by as many.
type Turns = BTreeMap<Unturned, (BTreeSet<usize>, BTreeSet<Vec<usize>>)>;

/// Of the rings that are served.
fn turns() -> Turns {
    let mut found = Turns::new();
    for case in cases("ring_modes", &kept_text("ring_modes")).expect("ring_modes") {
        let separators = case.answer[1].values[0] as usize;
        let given = match &case.call {
            Call::RingModes(given) if separators > 0 => given,
            _ => continue,
        };
        let (ring, bins) = (&given.histogram, given.histogram.len());
        let back = (0..bins).min_by_key(|&by| turned(ring, by));
        let back = back.expect("a ring that is served has bins");
        let list = case.answer[2].values[..separators].iter();
        let list: Vec<usize> = list.map(|&bin| bin as usize).collect();
        let unturned = (turned(ring, back), given.closeness);
        let (turns, lists) = found.entry(unturned).or_default();
        turns.insert(back);
        lists.insert(turned_list(&list, bins, back));
    }
    found
}

/// No ring of the kit with a single lowest bin has two lists, turned back. Of 2, 3, 59, 60 and 256 bins there is one that the
/// kit has turned; from 59 on it has three modes or more.
#[test]
fn rings_with_a_single_lowest_bin_turn_along() {
    let mut turns = turns();
    turns.retain(|(ring, _), _| lowest_bins(ring) == 1);
    for (ring, (_, lists)) in &turns {
        assert_eq!(lists.len(), 1, "{ring:?}: {lists:?}");
    }
    for (bins, modes, least) in [(2, 1, 2), (3, 1, 3), (59, 3, 3), (60, 3, 3), (256, 3, 3)] {
        let met = turns.iter().any(|((ring, _), (turns, lists))| {
            let several = lists.iter().all(|list| list.len() >= modes);
            ring.len() == bins && several && turns.len() >= least
        });
        assert!(met, "{bins} bins");
    }
}

/// The ring 1, 9, 0, 0, 9 and the same turned by 2.
#[test]
fn a_ring_with_two_lowest_bins_does_not_turn_along() {
    let turns = turns();
    let (_, lists) = &turns[&(vec![0, 0, 9, 1, 9], 0)];
    assert!(lists.len() > 1, "{lists:?}");
}

/// What is given to the calls of a file on logs, with the number of the answer.
fn given_logs(name: &str) -> Vec<(Logging, i64)> {
    let kept = cases(name, &kept_text(name)).expect(name);
    let given = kept.into_iter().map(|case| match case.call {
        Call::JoinLog(given) | Call::Replay(given, _) => (given, case.answer[0].values[0]),
        _ => panic!("another call in {name}"),
    });
    given.collect()
}

/// The lines that are served, each once, with their own logs.
fn logged_lines(name: &str) -> Vec<Logged> {
    let served = given_logs(name)
        .into_iter()
        .filter(|(_, number)| *number == 0);
    let lines: BTreeSet<(Vec<u32>, i32)> = served
        .map(|(given, _)| (given.histogram, given.closeness))
        .collect();
    let log = |(histogram, closeness): (Vec<u32>, i32)| Joins::of(&histogram, closeness).line;
    lines.into_iter().filter_map(log).collect()
}

/// What a log can have to show, and whether it has.
type Shows = (&'static str, fn(&Logged) -> bool);

/// How joins are counted, numbered and made.
const SHOWS: [Shows; 5] = [
    ("no joins", |line| line.records.is_empty()),
    ("several joins", |line| line.records.len() > 1),
    ("a run of three or more", |line| {
        line.records.iter().any(|record| record.len > 2)
    }),
    ("a rise", |line| {
        line.records.iter().any(|record| record.rise)
    }),
    ("segments numbered anew", |line| {
        let firsts = line.records.iter().map(|record| record.first);
        !firsts.eq(line.first_numbers())
    }),
];

#[test]
fn many_logs_have_something_to_show() {
    for name in ["join_log", "replay"] {
        let lines = logged_lines(name);
        for (what, shows) in SHOWS {
            let count = lines.iter().filter(|line| shows(line)).count();
            assert!(count >= LEAST_SHOWN, "{name}, {what}: {count}");
        }
        assert!(lines.iter().any(|line| line.records.len() == 127), "{name}");
    }
}

/// Each way in which a spoiled log can be taken for the line's own by a replay that looks at less than all of it.
#[test]
fn each_way_of_looking_at_less_is_shown() {
    let refused: Vec<(Logging, Vec<i64>)> = given_logs("replay")
        .into_iter()
        .filter(|(_, number)| *number == 20)
        .map(|(given, _)| {
            let line = Joins::of(&given.histogram, given.closeness).line;
            let own = line.expect("only the log is wrong").numbers();
            (given, own)
        })
        .collect();
    let but = |log: &[i64], own: &[i64], number: usize| {
        let differ = (0..own.len()).filter(|&place| log.get(place) != Some(&own[place]));
        let places: Vec<usize> = differ.collect();
        let there = places.iter().all(|place| place % RECORD == number);
        log.len() == own.len() && !places.is_empty() && there
    };
    let narrow = |log: &[i64]| -> Vec<i32> { log.iter().map(|&number| number as i32).collect() };
    let count = |ask: &dyn Fn(&[i64], &[i64]) -> bool| {
        let taken = refused.iter().filter(|(given, own)| ask(&given.log, own));
        taken.count()
    };
    assert!(count(&|log, own| own.starts_with(log)) >= LEAST_SHOWN);
    assert!(count(&|log, own| log.starts_with(own)) >= LEAST_SHOWN);
    assert!(count(&|log, own| narrow(log) == narrow(own)) >= LEAST_SHOWN);
    for number in 0..RECORD {
        let found = count(&|log, own| but(log, own, number));
        assert!(found >= LEAST_SHOWN, "number {number} of a record: {found}");
    }
}

/// The labels that a served call is lent, and those that it leaves.
struct Labels {
    lent: Vec<i64>,
    left: Vec<i64>,
}

fn labels(name: &str) -> Vec<Labels> {
    let kept = cases(name, &kept_text(name)).expect(name);
    let served = kept.into_iter().filter(|case| case.answer[0].values == [0]);
    let labels = served.map(|case| {
        let lent = match case.call {
            Call::Card { labels, .. } | Call::WidenLabels { labels, .. } => labels,
            _ => panic!("another call in {name}"),
        };
        let left = case.answer.last().expect("there are figures");
        Labels {
            lent: lent.into_iter().map(i64::from).collect(),
            left: left.values.clone(),
        }
    });
    labels.collect()
}

/// Each way in which a label can be kept in one byte, or only one of its bytes be written.
#[test]
fn each_way_of_writing_less_than_a_label_is_shown() {
    let shown = |name: &str, written: fn(i64, i64) -> i64| {
        let differs = |labels: &Labels| {
            let mut pairs = labels.lent.iter().zip(&labels.left);
            pairs.any(|(&lent, &label)| written(lent, label) != label)
        };
        labels(name).iter().filter(|labels| differs(labels)).count()
    };
    // A label that was one byte is never more than that.
    assert!(shown("card", |_, label| label & 0xff) >= 4);
    for name in ["card", "widen_labels"] {
        let low = |lent: i64, label: i64| (lent & 0xff00) | (label & 0xff);
        assert!(shown(name, low) >= 4, "{name}");
        let high = |lent: i64, label: i64| (label & 0xff00) | (lent & 0xff);
        assert!(shown(name, high) >= 4, "{name}");
    }
}

#[test]
fn both_limits_of_a_card_are_met_exactly() {
    let served = labels("card");
    let entries: BTreeSet<i64> = served
        .iter()
        .filter_map(|labels| labels.left.iter().max())
        .map(|last| last + 1)
        .collect();
    for wanted in [254, 255, 256, 257, 262, 999, 1_000] {
        assert!(entries.contains(&wanted), "{wanted}");
    }
    assert_eq!(entries.last(), Some(&1_000));
}

#[test]
fn every_byte_is_widened_and_lists_of_other_lengths_are_not() {
    let mut met = BTreeSet::new();
    let mut lengths = BTreeMap::new();
    for case in cases("widen_labels", &kept_text("widen_labels")).expect("widen_labels") {
        let Call::WidenLabels { narrow, labels } = case.call else {
            panic!("another call")
        };
        let served = case.answer[0].values == [0];
        met.extend(if served { narrow.clone() } else { vec![] });
        *lengths.entry(narrow.len().cmp(&labels.len())).or_insert(0) += 1;
    }
    assert_eq!(met.len(), 256);
    for (way, least) in [(Ordering::Less, 10), (Ordering::Greater, 10)] {
        assert!(lengths[&way] >= least, "{way:?}: {}", lengths[&way]);
    }
}

#[test]
fn the_readme_has_the_number_of_cases() {
    let path = folder().join("README.md");
    let page = fs::read_to_string(path).expect("the page can be read");
    for (name, ..) in LEAST {
        let count = cases(name, &kept_text(name)).expect(name).len();
        let count = match count / 1000 {
            0 => count.to_string(),
            thousands => format!("{thousands},{:03}", count % 1000),
        };
        let row = format!("| `{name}.txt` | {count} |");
        assert!(page.contains(&row), "{row}");
    }
}

/// The names of the lines that hold answers.
const ANSWERS: [&str; 14] = [
    "pixel",
    "number",
    "sums",
    "lengths",
    "cost",
    "rejected",
    "separators",
    "list_after",
    "joins",
    "log_after",
    "len",
    "entry",
    "labels_after",
    "printed",
];

/// The line with another last digit, or with a value where there was none.
fn altered(line: &str) -> String {
    match line.rfind(|c: char| c.is_ascii_digit()) {
        None => format!("{line} 1"),
        Some(place) => {
            let digit = if &line[place..=place] == "1" {
                "2"
            } else {
                "1"
            };
            format!("{}{digit}{}", &line[..place], &line[place + 1..])
        }
    }
}

/// A check that cannot fail would be none: each figure of some cases of each file is altered, one at a time.
#[test]
fn every_altered_figure_is_noticed() {
    let mut tried = BTreeMap::new();
    for (name, ..) in LEAST {
        let text = kept_text(name);
        let records: Vec<&str> = text.trim_end().split("\n\n").skip(1).collect();
        for record in records.iter().step_by(records.len() / 9) {
            let lines: Vec<&str> = record
                .lines()
                .filter(|line| !line.starts_with('#'))
                .collect();
            // A record of measures has a case in each line.
            let count = if name == "measures" { lines.len() } else { 1 };
            let header = format!("format {FORMAT}\ncall \"kistrovu_{name}\"\ncases {count}\n\n");
            check(name, &format!("{header}{}\n", lines.join("\n")), engine).expect(record);
            for place in 0..lines.len() {
                let word = lines[place].split(' ').next().expect("a line has a name");
                if !ANSWERS.contains(&word) {
                    continue;
                }
                let mut lines: Vec<String> = lines.iter().map(|line| line.to_string()).collect();
                lines[place] = altered(&lines[place]);
                let text = format!("{header}{}\n", lines.join("\n"));
                assert!(check(name, &text, engine).is_err(), "{name}: {text}");
                *tried.entry(word.to_string()).or_insert(0) += 1;
            }
        }
    }
    assert_eq!(tried.len(), ANSWERS.len(), "{tried:?}");
}
