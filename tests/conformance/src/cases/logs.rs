//! Lines for the log of their joins, and logs for a replay: those of the lines, and spoiled ones.

use super::histograms::{every, limits, telling, Named, SHAPES};
use super::modes::LINE_RULES;
use super::{unwritten_list, unwritten_log, Case};
use crate::calls::{Call, Logging};
use cloths::random::Random;
use compare::log_damage::{in_turn, Line, DAMAGES};
use compare::mode_shapes;
use compare::mode_ties::MODE_TIES;
use reference::calls::{Joins, LEAST_CLOSENESS, MOST_BINS, MOST_CLOSENESS};
use reference::logs::RECORD;
use std::collections::BTreeSet;

const SEED: u64 = 109;

/// A line with what it is for, and its closeness.
type Asked = (Named, i32);

/// Six segments: the first two are joined by the rise, then three of the others by the fall, and then these with the last
/// one. The first two and the rest stay apart.
const LINE: [u32; 12] = [7, 1, 9, 0, 12, 1, 10, 0, 6, 0, 7, 2];
const CLOSENESS: i32 = 1;
/// Where the lengths of logs and lists are tried on it.
const LENT_CLOSENESS: i32 = 4;

/// Lines whose log shows if a rule is misread: what for, a closeness, the counts.
const LOG_RULES: &[(&str, i32, &[u32])] = &[
    (
        "a rise, a run of three by the fall, a fall: the segments behind a join are numbered anew",
        CLOSENESS,
        &LINE,
    ),
    (
        "two equal joins: the second has number 1, and had 2 at first",
        0,
        &[20, 0, 1, 0, 20, 0, 1, 0, 20],
    ),
    (
        "the join on the right comes first: no segment is numbered anew",
        0,
        &[7, 1, 7, 5, 7],
    ),
    (
        "a join in the middle, then one on its left and one on its right",
        0,
        &[1, 0, 30, 0, 1, 0, 30, 0, 1],
    ),
    (
        "rise and fall cost the same: the fall is written",
        0,
        &[0, 1, 0, 1, 0],
    ),
    ("the rise is dearer: the fall is written", 0, &[2, 0, 1]),
    ("the fall is dearer: the rise is written", 0, &[1, 0, 2]),
    (
        "joined from the left, all by the fall",
        0,
        &[1, 0, 1, 0, 1, 0, 1],
    ),
    (
        "a run of three by the fall, then two again",
        0,
        &[5, 0, 5, 0, 5, 0, 5],
    ),
    (
        "a run of three by the rise, behind one of two",
        0,
        &[19, 2, 10, 2, 19, 0, 13, 2, 11, 2, 12],
    ),
    (
        "a run of three by the rise, behind two of two",
        -1,
        &[7, 2, 7, 2, 5, 0, 8, 1, 7, 1, 8],
    ),
    (
        "four joins, a run of three among them",
        0,
        &[8, 1, 6, 0, 11, 1, 12, 2, 7, 1, 12],
    ),
    (
        "four joins, the last of the two segments that are left",
        1,
        &[7, 2, 10, 0, 8, 0, 7, 1, 6, 0, 11],
    ),
    ("all bins equal: one segment, no joins", 0, &[7, 7, 7, 7]),
    (
        "two segments that stay apart: no joins",
        13,
        &[0, 20, 0, 20, 0],
    ),
    (
        "two segments that are joined at one closeness more",
        14,
        &[0, 20, 0, 20, 0],
    ),
];

fn asked(what: impl Into<String>, counts: &[u32], closeness: i32) -> Asked {
    ((what.into(), counts.to_vec()), closeness)
}

pub fn logs() -> Vec<Case> {
    let mut all = served();
    all.extend(limits().into_iter().map(|named| (named, 0)));
    all.extend(closenesses());
    let mut cases: Vec<Case> = all.into_iter().map(log_that_fits).collect();
    cases.extend(lengths());
    cases.extend(lengths_at_the_ends());
    cases.extend(log_grounds_at_once());
    cases
}

/// The lines of both calls that are not turned down, each once.
fn served() -> Vec<Asked> {
    let rule = |&(what, closeness, counts): &(&str, i32, &[u32])| asked(what, counts, closeness);
    let mut all: Vec<Asked> = LOG_RULES.iter().map(rule).collect();
    all.extend(LINE_RULES.iter().map(rule));
    for closeness in [LEAST_CLOSENESS, -1, 0, 2, 3, MOST_CLOSENESS] {
        let what = format!("the line of the first case, at closeness {closeness}");
        all.push(asked(what, &LINE, closeness));
    }
    all.extend(ties());
    let short = |named: &Named| named.1.len() < MOST_BINS || named.1.iter().sum::<u32>() == 0;
    let telling = telling().into_iter().filter(short);
    all.extend(telling.map(|named| (named, 0)));
    let small = every(7, &[0, 6]).into_iter();
    all.extend(small.map(|counts| asked("every small histogram", &counts, 0)));
    all.extend(drawn());
    all.extend(longest());
    let mut met = BTreeSet::new();
    all.retain(|((_, counts), closeness)| met.insert((counts.clone(), *closeness)));
    all
}

/// Joins that cost −1 are written, those that cost 0 are not made.
fn ties() -> Vec<Asked> {
    let mut all = Vec::new();
    for (cost, closeness, line) in MODE_TIES.iter().step_by(2) {
        let what = format!("joining costs {cost} at closeness {closeness}");
        for closeness in *closeness..=closeness + 1 {
            all.push(asked(what.clone(), line, closeness));
        }
    }
    all.retain(|(_, closeness)| *closeness <= MOST_CLOSENESS);
    all
}

fn drawn() -> Vec<Asked> {
    let mut random = Random::new(SEED);
    let mut all = Vec::new();
    for bins in [5, 9, 14, 20] {
        let served = SHAPES.iter().filter(|(name, _)| *name != "huge counts");
        for (name, shape) in served {
            let what = format!("drawn: {name}, {bins} bins");
            let mut counts = shape(&mut random, bins);
            let over = counts.iter().sum::<u32>().saturating_sub(65_536);
            if let Some(highest) = counts.iter_mut().max() {
                *highest -= over;
            }
            all.push(asked(what, &counts, random.signed_within(-1, 6)));
        }
    }
    for (place, closeness) in [0, 0, -4, 3, 10, MOST_CLOSENESS].into_iter().enumerate() {
        let bins = [42, 52, 60][place % 3];
        let what = format!("drawn: as a cloth gives it, {bins} bins");
        all.push(asked(
            what,
            &mode_shapes::cloth(&mut random, bins),
            closeness,
        ));
    }
    all
}

/// As many joins as 256 bins can have; humps with a dent, whose joins are long stretches; and one segment.
fn longest() -> Vec<Asked> {
    let mut humps: Vec<u32> = (0..MOST_BINS as u32)
        .map(|bin| 200 - bin % 128 / 2)
        .collect();
    humps[60] -= 3;
    humps[200] -= 2;
    let rising: Vec<u32> = (0..MOST_BINS as u32).collect();
    vec![
        asked(
            "256 bins, 127 joins",
            &[0, 1].repeat(MOST_BINS / 2),
            MOST_CLOSENESS,
        ),
        asked("256 bins, two humps with a dent each", &humps, 0),
        asked("256 bins, one segment", &rising, LEAST_CLOSENESS),
    ]
}

fn closenesses() -> Vec<Asked> {
    [
        ("closeness -11: ground 8", LEAST_CLOSENESS - 1),
        ("closeness 21: ground 8", MOST_CLOSENESS + 1),
        ("a closeness that is 0 in 8 bits: ground 8", 1 << 8),
        ("a closeness that is 0 in 16 bits: ground 8", 1 << 16),
        ("the least number as closeness: ground 8", i32::MIN),
        ("the largest number as closeness: ground 8", i32::MAX),
    ]
    .map(|(what, closeness)| asked(what, &LINE, closeness))
    .into()
}

fn log_of(what: impl Into<String>, histogram: Vec<u32>, closeness: i32, numbers: usize) -> Case {
    let given = Logging {
        histogram,
        closeness,
        log: unwritten_log(numbers),
    };
    Case::new(what, Call::JoinLog(given))
}

/// With four numbers for each bin.
fn log_that_fits(((what, histogram), closeness): Asked) -> Case {
    let numbers = RECORD * histogram.len();
    log_of(what, histogram, closeness, numbers)
}

fn lengths() -> Vec<Case> {
    let mut cases = Vec::new();
    let fewest = RECORD * LINE.len();
    for (what, numbers) in [
        ("no numbers: ground 10", 0),
        (
            "numbers for all joins, but not for every bin: ground 10",
            own(&LINE, LENT_CLOSENESS).len(),
        ),
        (
            "a number for each bin, where four are asked for: ground 10",
            LINE.len(),
        ),
        ("one place short: ground 10", fewest - RECORD),
        ("three numbers short: ground 10", fewest - 3),
        ("one number short: ground 10", fewest - 1),
        ("as many numbers as are asked for", fewest),
        ("one number left over, which stays as lent", fewest + 1),
        ("two numbers left over, which stay as lent", fewest + 2),
        ("three numbers left over, which stay as lent", fewest + 3),
        ("one place more, which stays as lent", fewest + RECORD),
        ("far more numbers than any log needs", 2_000),
    ] {
        cases.push(log_of(
            format!("a log: {what}"),
            LINE.to_vec(),
            LENT_CLOSENESS,
            numbers,
        ));
    }
    cases
}

/// Of the fewest bins and of the most.
fn lengths_at_the_ends() -> Vec<Case> {
    let mut cases = Vec::new();
    for (bins, numbers) in [(2, 7), (2, 8), (MOST_BINS, 1_023), (MOST_BINS, 1_024)] {
        let what = format!(
            "{numbers} numbers for {bins} bins: {}",
            served_or_10(bins, numbers)
        );
        cases.push(log_of(what, vec![3; bins], 0, numbers));
    }
    cases
}

fn served_or_10(bins: usize, numbers: usize) -> &'static str {
    if numbers < RECORD * bins {
        "ground 10"
    } else {
        "served"
    }
}

/// A choice of one or more grounds that hold, and what it is called.
struct Choice {
    what: String,
    histogram: Vec<u32>,
    closeness: i32,
    /// Whether a place is missing.
    short: bool,
    /// Whether the log is another one; of a replay only.
    other: bool,
}

fn choice(choice: u32) -> Choice {
    let holds = |bit: u32| choice >> bit & 1 == 1;
    let grounds = [6, 7, 8, 10, 20].into_iter().zip(0..);
    let numbers: Vec<String> = grounds
        .filter(|&(_, bit)| holds(bit))
        .map(|(ground, _)| ground.to_string())
        .collect();
    let what = match numbers.as_slice() {
        [one] => format!("ground {one} alone"),
        _ => {
            let all = numbers.join(", ");
            format!("grounds {all} hold: {} comes first", numbers[0])
        }
    };
    let mut histogram = vec![0; if holds(0) { MOST_BINS + 1 } else { 5 }];
    histogram[1] = 1;
    histogram[3] = if holds(1) { 65_536 } else { 1 };
    Choice {
        what,
        histogram,
        closeness: if holds(2) { MOST_CLOSENESS + 1 } else { 0 },
        short: holds(3),
        other: holds(4),
    }
}

fn log_grounds_at_once() -> Vec<Case> {
    let case = |choice: Choice| {
        let numbers = RECORD * choice.histogram.len() - usize::from(choice.short);
        log_of(choice.what, choice.histogram, choice.closeness, numbers)
    };
    (1..16).map(choice).map(case).collect()
}

pub fn replays() -> Vec<Case> {
    let mut cases: Vec<Case> = served().into_iter().map(own_log).collect();
    cases.extend(every_damage());
    cases.extend(damage_in_turn());
    cases.extend(lists());
    cases.extend(replay_grounds());
    cases.extend(replay_grounds_at_once());
    cases.extend(odd_logs());
    cases.extend(long_logs());
    cases
}

fn own(histogram: &[u32], closeness: i32) -> Vec<i64> {
    let line = Joins::of(histogram, closeness).line;
    line.map_or(Vec::new(), |line| line.numbers())
}

fn replay_of(what: impl Into<String>, histogram: &[u32], closeness: i32, log: Vec<i64>) -> Case {
    replay_in(histogram.len(), what, histogram, closeness, log)
}

/// With so many places in the list.
fn replay_in(
    places: usize,
    what: impl Into<String>,
    histogram: &[u32],
    closeness: i32,
    log: Vec<i64>,
) -> Case {
    let given = Logging {
        histogram: histogram.to_vec(),
        closeness,
        log,
    };
    Case::new(what, Call::Replay(given, unwritten_list(places)))
}

fn own_log(((what, histogram), closeness): Asked) -> Case {
    let log = own(&histogram, closeness);
    replay_of(format!("its own log: {what}"), &histogram, closeness, log)
}

/// Asks for spoiled logs of a line; none of them is the line's own.
fn spoiled(
    histogram: &[u32],
    closeness: i32,
    ask: impl Fn(&Line) -> Vec<(usize, Vec<i64>)>,
) -> Vec<Case> {
    let joins = Joins::of(histogram, closeness);
    let logged = joins.line.as_ref().expect("the line is served");
    let line = Line {
        histogram,
        closeness,
        logged,
        turn: None,
    };
    let mut met = BTreeSet::from([logged.numbers()]);
    let mut logs = ask(&line);
    logs.retain(|(_, log)| met.insert(log.clone()));
    let case = |(kind, log): (usize, Vec<i64>)| {
        let what = format!("a spoiled log, {}: ground 20", DAMAGES[kind].0);
        replay_of(what, histogram, closeness, log)
    };
    logs.into_iter().map(case).collect()
}

fn every_damage() -> Vec<Case> {
    spoiled(&LINE, CLOSENESS, |line| {
        let kinds = DAMAGES.iter().enumerate();
        let logs = kinds.map(|(kind, (_, damaged))| (kind, damaged(line)));
        logs.flat_map(|(kind, logs)| logs.into_iter().map(move |log| (kind, log)))
            .collect()
    })
}

/// Five for each of the other lines that are made for a rule, each line once.
fn damage_in_turn() -> Vec<Case> {
    let rules = LOG_RULES.iter().skip(1).chain(LINE_RULES);
    let mut met = BTreeSet::new();
    let lines = rules.filter(|(_, closeness, counts)| met.insert((*closeness, *counts)));
    let mut cases = Vec::new();
    for (place, (_, closeness, counts)) in lines.enumerate() {
        cases.extend(spoiled(counts, *closeness, |line| {
            let places = 5 * place..5 * place + 5;
            places.filter_map(|place| in_turn(line, place)).collect()
        }));
    }
    cases
}

fn lists() -> Vec<Case> {
    let bins = LINE.len();
    let mut cases = Vec::new();
    for (what, places) in [
        ("without places: ground 10", 0),
        (
            "with places for the separators, but not for every bin: ground 10",
            7,
        ),
        ("one place short: ground 10", bins - 1),
        ("of as many places as bins", bins),
        ("one place longer, which stays as lent", bins + 1),
        ("far longer than any histogram", 300),
    ] {
        let log = own(&LINE, LENT_CLOSENESS);
        let what = format!("a list: {what}");
        cases.push(replay_in(places, what, &LINE, LENT_CLOSENESS, log));
    }
    cases
}

/// Grounds 6, 7 and 8 at their limits, with the log that is empty where the line is turned down.
fn replay_grounds() -> Vec<Case> {
    let lines = limits().into_iter().map(|named| (named, 0));
    let lines = lines.chain(closenesses());
    let case = |((what, histogram), closeness): Asked| {
        let log = own(&histogram, closeness);
        replay_of(what, &histogram, closeness, log)
    };
    lines.map(case).collect()
}

/// Every choice of the grounds 6, 7, 8, 10 and 20.
fn replay_grounds_at_once() -> Vec<Case> {
    let case = |choice: Choice| {
        let Choice {
            histogram,
            closeness,
            ..
        } = choice;
        let mut log = own(&histogram, closeness);
        if choice.other {
            log.push(0);
        }
        let places = histogram.len() - usize::from(choice.short);
        replay_in(places, choice.what, &histogram, closeness, log)
    };
    (1..32).map(choice).map(case).collect()
}

/// Of lines without joins; and too long, where there is nothing left to join.
fn odd_logs() -> Vec<Case> {
    let (apart, equal) = ([0, 20, 0, 20, 0], [3; 6]);
    let odd: [(&str, &[u32], i32, Vec<i64>); 6] = [
        (
            "an empty log, though two segments are to be joined: ground 20",
            &apart,
            14,
            vec![],
        ),
        ("zeros: ground 20", &apart, 0, vec![0; RECORD]),
        ("one zero: ground 20", &apart, 0, vec![0]),
        ("1,000 zeros: ground 20", &apart, 0, vec![0; 1_000]),
        ("an empty log of equal bins", &equal, 0, vec![]),
        (
            "a run of one segment: ground 20",
            &equal,
            0,
            vec![0, 1, 0, -1],
        ),
    ];
    odd.map(|(what, histogram, closeness, log)| replay_of(what, histogram, closeness, log))
        .into()
}

fn long_logs() -> Vec<Case> {
    let alternating = [0, 1].repeat(MOST_BINS / 2);
    let log = own(&alternating, MOST_CLOSENESS);
    [
        ("one record short", log[..log.len() - RECORD].to_vec()),
        ("one number short", log[..log.len() - 1].to_vec()),
        ("one number too long", [&log[..], &[0]].concat()),
        ("twice as long", log.repeat(2)),
    ]
    .map(|(what, log)| {
        let what = format!("127 joins in 256 bins, the log {what}: ground 20");
        replay_of(what, &alternating, MOST_CLOSENESS, log)
    })
    .into()
}
