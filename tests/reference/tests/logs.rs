//! Logs of joins: rows that can be followed by hand, every small line by the rules of the search, and what the records say
//! by themselves. Then replays, of the line's own log and of logs that are nearly it.

#[path = "common/scatter.rs"]
mod scatter;

use reference::calls::{line_modes, replay, verdict, LEAST_CLOSENESS, MOST_CLOSENESS};
use reference::lines::{first_segments, join, modes, Segment};
use reference::logs::{logged, Logged, Record, RECORD};
use scatter::Scatter;

fn record(first: usize, len: usize, rise: bool, cost: i64) -> Record {
    Record {
        first,
        len,
        rise,
        cost,
    }
}

fn narrow(counts: &[u64]) -> Vec<u32> {
    counts.iter().map(|&count| count as u32).collect()
}

/// The cost of a stretch, by the call for verdicts.
fn cost(counts: &[u64], rising: bool, closeness: i32) -> i64 {
    let answer = verdict(&narrow(counts), rising, closeness);
    assert_eq!(answer.number, 0);
    answer.verdict.cost
}

/// Six segments. The first two are joined by the rise, to the peak of 9. What were segments 2, 3 and 4 are now 1, 2 and 3,
/// and are joined by the fall from their first peak, 12. Then the last one is joined to them. The first two and the rest
/// stay apart.
const LINE: [u64; 12] = [7, 1, 9, 0, 12, 1, 10, 0, 6, 0, 7, 2];
const CLOSENESS: i32 = 1;

fn line_records() -> [Record; 3] {
    [
        record(0, 2, true, -53_150_072),
        record(1, 3, false, -51_962_326),
        record(1, 2, false, -85_123_603),
    ]
}

#[test]
fn a_line_to_follow_by_hand() {
    let line = logged(&LINE, CLOSENESS);
    assert_eq!(line.stages[0].len(), 6);
    assert_eq!(line.records, line_records());
    assert_eq!(line.separators, [0, 3, 11]);
    assert_eq!(line.first_numbers(), [0, 2, 2]);
    let stretches: [(&[u64], bool); 3] = [
        (&[7, 1, 9], true),
        (&[12, 1, 10, 0, 6, 0], false),
        (&[12, 1, 10, 0, 6, 0, 7, 2], false),
    ];
    for (found, (stretch, rising)) in line.records.iter().zip(stretches) {
        assert_eq!(found.cost, cost(stretch, rising, CLOSENESS), "{stretch:?}");
    }
    assert_eq!(
        line.numbers(),
        [
            0,
            2,
            1,
            -53_150_072,
            1,
            3,
            0,
            -51_962_326,
            1,
            2,
            0,
            -85_123_603
        ]
    );
}

/// Closeness, counts, and of each join the run, the way and the stretch that it costs; 0 is the fall.
type Row = (
    i32,
    &'static [u64],
    &'static [(usize, usize, u8, &'static [u64])],
);

const ROWS: &[Row] = &[
    // Fall and rise cost the same: the fall is taken, in turn from the left.
    (0, &[0, 1, 0, 1, 0], &[(0, 2, 0, &[1, 0, 1, 0])]),
    (
        0,
        &[1, 0, 1, 0, 1],
        &[(0, 2, 0, &[1, 0, 1, 0]), (0, 2, 0, &[1, 0, 1, 0, 1])],
    ),
    // The same stretch costs the same as a rise and mirrored as a fall.
    (
        0,
        &[14, 5, 20, 5, 14],
        &[(0, 2, 1, &[14, 5, 20]), (0, 2, 0, &[20, 5, 14])],
    ),
    (0, &[8, 6, 15], &[(0, 2, 1, &[8, 6, 15])]),
    (0, &[15, 6, 8], &[(0, 2, 0, &[15, 6, 8])]),
    // Not the leftmost pair, but the cheapest.
    (
        0,
        &[7, 1, 7, 5, 7],
        &[(1, 2, 1, &[1, 7, 5, 7]), (0, 2, 1, &[7, 1, 7, 5, 7])],
    ),
    // The leftmost of equal pairs first, so that the other one has another number when its turn comes.
    (
        0,
        &[20, 0, 1, 0, 20, 0, 1, 0, 20],
        &[(0, 2, 0, &[20, 0, 1, 0]), (1, 2, 0, &[20, 0, 1, 0])],
    ),
    (0, &[8, 1, 8, 1, 8], &[(0, 3, 0, &[8, 1, 8, 1, 8])]),
    (
        0,
        &[6, 0, 6, 0, 6, 0, 6],
        &[(0, 4, 0, &[6, 0, 6, 0, 6, 0, 6])],
    ),
    (
        0,
        &[8, 0, 8, 0, 8, 0, 8, 0, 8, 0, 8],
        &[(0, 6, 0, &[8, 0, 8, 0, 8, 0, 8, 0, 8, 0, 8])],
    ),
    // A run of three, then a run of two again.
    (
        0,
        &[5, 0, 5, 0, 5, 0, 5],
        &[
            (0, 3, 0, &[5, 0, 5, 0, 5, 0]),
            (0, 2, 0, &[5, 0, 5, 0, 5, 0, 5]),
        ],
    ),
    // Joined at a cost next to 0, and kept apart at 0 and above.
    (16, &[194, 91, 445], &[(0, 2, 1, &[194, 91, 445])]),
    (-1, &[3_587, 3_414, 3_557], &[]),
    (0, &[558, 487, 596], &[]),
    (13, &[0, 20, 0, 20, 0], &[]),
    (14, &[0, 20, 0, 20, 0], &[(0, 2, 0, &[20, 0, 20, 0])]),
    (-10, &[0, 1, 0, 1, 0], &[]),
];

#[test]
fn rows_with_the_stretch_of_each_join() {
    for (closeness, counts, joins) in ROWS {
        let one = |&(first, len, rise, stretch): &(usize, usize, u8, &[u64])| {
            let cost = cost(stretch, rise == 1, *closeness);
            record(first, len, rise == 1, cost)
        };
        let expected: Vec<Record> = joins.iter().map(one).collect();
        assert_eq!(logged(counts, *closeness).records, expected, "{counts:?}");
    }
    let least = logged(&[194, 91, 445], 16).records;
    assert_eq!(least, [record(0, 2, true, -1)]);
}

#[test]
fn one_segment_has_an_empty_log() {
    let mut lines: Vec<Vec<u64>> = (2..=24).map(|bins| vec![bins as u64 % 3; bins]).collect();
    lines.push((0..256).collect());
    lines.push((0..256).rev().collect());
    lines.push(vec![256; 256]);
    for counts in lines {
        for closeness in [LEAST_CLOSENESS, 0, MOST_CLOSENESS] {
            let line = logged(&counts, closeness);
            assert_eq!((line.stages[0].len(), line.records.len()), (1, 0));
            assert_eq!(line.separators, [0, counts.len() - 1]);
            assert_refused_but(&counts, closeness, &[]);
        }
    }
}

/// As many segments as 256 bins can have, joined pair by pair; and 256 bins in two humps with a dent each.
#[test]
fn lines_of_256_bins() {
    let alternating = [0, 1].repeat(128);
    let line = logged(&alternating, MOST_CLOSENESS);
    assert_eq!((line.stages[0].len(), line.records.len()), (128, 127));
    assert!(line.records.iter().all(|found| found.len == 2));
    assert_eq!(line.separators, [0, 255]);
    let left = followed(&alternating, &line.numbers()).expect("it can be followed");
    assert_eq!(left, modes(&alternating, MOST_CLOSENESS));

    let mut humps: Vec<u64> = (0..256).map(|bin| 200 - (bin % 128) / 2).collect();
    humps[60] -= 3;
    humps[200] -= 2;
    let line = logged(&humps, 0);
    assert_eq!(line.stages[0].len(), 4);
    let runs: Vec<(usize, usize)> = line.records.iter().map(|r| (r.first, r.len)).collect();
    assert_eq!(runs, [(2, 2), (0, 2)]);
    assert_eq!(line.separators, [0, 126, 255]);
}

/// Every line of 2 to 6 bins with counts of 0, 1, 5 and 20, of 7 bins with 0, 4 and 9, and of 9 and 11 with 0 and 6.
fn small_lines() -> Vec<Vec<u64>> {
    let mut lines = Vec::new();
    let levels: [(u32, &[u64]); 8] = [
        (2, &[0, 1, 5, 20]),
        (3, &[0, 1, 5, 20]),
        (4, &[0, 1, 5, 20]),
        (5, &[0, 1, 5, 20]),
        (6, &[0, 1, 5, 20]),
        (7, &[0, 4, 9]),
        (9, &[0, 6]),
        (11, &[0, 6]),
    ];
    for (bins, levels) in levels {
        for code in 0..levels.len().pow(bins) {
            let digit = |bin| code / levels.len().pow(bin) % levels.len();
            lines.push((0..bins).map(|bin| levels[digit(bin)]).collect());
        }
    }
    lines
}

/// High and low in turn, so that there are as many segments as can be and runs of three or more are joined.
fn scattered_lines() -> Vec<Vec<u64>> {
    let mut scatter = Scatter(20);
    let mut lines = Vec::new();
    for (low, high) in [(2, 3), (3, 8), (3, 14), (6, 20)] {
        for bins in 5..=15 {
            for _ in 0..3 {
                let (lows, highs) = (
                    scatter.line(bins, 0, low),
                    scatter.line(bins, high / 2, high),
                );
                let at = |bin| if bin % 2 == 0 { highs[bin] } else { lows[bin] };
                lines.push((0..bins).map(at).collect());
            }
        }
    }
    lines
}

/// The next join as the rules have it, by nothing but verdicts: of all runs that can be joined the shortest, of these the
/// cheapest, of these the leftmost; by the fall, if that costs no more than the rise.
fn by_verdicts(counts: &[u64], closeness: i32, segments: &[Segment]) -> Option<Record> {
    let mut joinable = Vec::new();
    for first in 0..segments.len() {
        for last in first + 1..segments.len() {
            let (left, right) = (segments[first], segments[last]);
            let fall = cost(&counts[left.peak..=right.end], false, closeness);
            let rise = cost(&counts[left.start..=right.peak], true, closeness);
            let ways = [(fall, false), (rise, true)];
            let (cost, rise) = ways.into_iter().min().expect("there are two");
            joinable.push(record(first, last + 1 - first, rise, cost));
        }
    }
    joinable.retain(|record| record.cost < 0);
    joinable
        .into_iter()
        .min_by_key(|record| (record.len, record.cost, record.first))
}

/// What a record leaves, read off its numbers: none, if there is no such run.
fn left_by(segments: &[Segment], numbers: &[i64]) -> Option<Vec<Segment>> {
    let &[first, len, rise, _] = numbers else {
        return None;
    };
    let first = usize::try_from(first).ok()?;
    let end = first.checked_add(usize::try_from(len).ok()?)?;
    let run = segments.get(first..end)?;
    let (left, right) = (run.first()?, run.last()?);
    let one = Segment {
        start: left.start,
        peak: if rise == 1 { right.peak } else { left.peak },
        end: right.end,
    };
    Some([&segments[..first], &[one], &segments[end..]].concat())
}

/// The segments that a log leaves, record by record, without a look at any cost.
fn followed(counts: &[u64], log: &[i64]) -> Option<Vec<Segment>> {
    let mut segments = first_segments(counts);
    for numbers in log.chunks(RECORD) {
        segments = left_by(&segments, numbers)?;
    }
    Some(segments)
}

/// Each record is that of the next join, as the verdicts give it and as the search of the lines does, and when the log ends
/// there is none.
fn assert_by_the_rules(counts: &[u64], closeness: i32, line: &Logged) {
    let stages = &line.stages;
    assert_eq!(stages[0], first_segments(counts));
    assert_eq!(stages.len(), line.records.len() + 1);
    for (stage, found) in stages.iter().zip(&line.records) {
        let due = by_verdicts(counts, closeness, stage);
        assert_eq!(due.as_ref(), Some(found), "{counts:?}");
        let run = &stage[found.first..found.first + found.len];
        assert_eq!(join(counts, closeness, run).cost, found.cost, "{counts:?}");
    }
    let last = stages.last().expect("there is a first");
    assert_eq!(by_verdicts(counts, closeness, last), None, "{counts:?}");
}

/// And followed by its numbers alone the log leads to the modes.
#[test]
fn logs_are_by_the_rules() {
    let (mut several, mut long, mut risen, mut renumbered) = (0, 0, 0, 0);
    for (lines, closenesses) in [(small_lines(), [-3, 0, 2]), (scattered_lines(), [-1, 0, 1])] {
        for (counts, closeness) in lines.iter().flat_map(|l| closenesses.map(|e| (l, e))) {
            let line = logged(counts, closeness);
            assert_by_the_rules(counts, closeness, &line);
            let left = followed(counts, &line.numbers());
            assert_eq!(left, Some(modes(counts, closeness)), "{counts:?}");
            let firsts: Vec<usize> = line.records.iter().map(|record| record.first).collect();
            several += usize::from(line.records.len() > 1);
            long += usize::from(line.records.iter().any(|record| record.len > 2));
            risen += usize::from(line.records.iter().any(|record| record.rise));
            renumbered += usize::from(firsts != line.first_numbers());
        }
    }
    assert!(several >= 2_000, "{several}");
    assert!(long >= 150, "{long}");
    assert!(risen >= 2_000, "{risen}");
    assert!(renumbered >= 50, "{renumbered}");
}

/// What an answer to a replay says: the number, how many separators, and the list as left.
type Replayed = (u32, u32, Vec<u32>);

fn replayed(counts: &[u64], closeness: i32, log: &[i64]) -> Replayed {
    let mut list = vec![1_000_000; counts.len() + 2];
    let answer = replay(&narrow(counts), closeness, log, &mut list);
    (answer.number, answer.separators, list)
}

/// This log is served as the line call is, and every log next to it is turned down, with the list as lent.
fn assert_refused_but(counts: &[u64], closeness: i32, log: &[i64]) {
    let mut list = vec![1_000_000; counts.len() + 2];
    let lent = list.clone();
    let due = line_modes(&narrow(counts), closeness, &mut list);
    let found = replayed(counts, closeness, log);
    assert_eq!(found, (0, due.separators, list), "{counts:?}");
    for other in next_to(log) {
        let found = replayed(counts, closeness, &other);
        assert_eq!(found, (20, 0, lent.clone()), "{counts:?}: {other:?}");
    }
}

/// Logs that differ from this one in a single number, in where they begin or end, or in the order of two records.
fn next_to(log: &[i64]) -> Vec<Vec<i64>> {
    let mut others = Vec::new();
    for place in 0..log.len() {
        let own = log[place];
        let near = [own - 1, own + 1, !own, own + (1 << 32)];
        for number in near.into_iter().chain([0, 2, -1, i64::MIN, i64::MAX]) {
            let mut other = log.to_vec();
            other[place] = number;
            others.push(other);
        }
    }
    for len in 0..log.len() {
        others.push(log[..len].to_vec());
        others.push(log[log.len() - len..].to_vec());
    }
    for behind in 1..=RECORD {
        others.push([log, &vec![0; behind]].concat());
        others.push([log, &log[log.len().saturating_sub(behind)..]].concat());
    }
    for first in (0..log.len()).step_by(RECORD).skip(1) {
        let (before, behind) = (&log[..first - RECORD], &log[first + RECORD..]);
        let (left, right) = log[first - RECORD..first + RECORD].split_at(RECORD);
        others.push([before, right, left, behind].concat());
        others.push([before, right, behind].concat());
    }
    others.retain(|other| other != log);
    others
}

#[test]
fn a_replay_takes_no_log_but_the_line_s_own() {
    assert_refused_but(&LINE, CLOSENESS, &logged(&LINE, CLOSENESS).numbers());
    for (closeness, counts, _) in ROWS {
        let log = logged(counts, *closeness).numbers();
        assert_refused_but(counts, *closeness, &log);
    }
    for counts in scattered_lines().iter().step_by(5) {
        assert_refused_but(counts, 0, &logged(counts, 0).numbers());
    }
}

/// Each is what a replay would take that looks at less than all of it.
#[test]
fn logs_that_some_other_replay_would_take() {
    let [first, second, third] = line_records().map(|record| record.numbers());
    let of = |records: &[[i64; RECORD]]| records.concat();
    let with = |record: [i64; RECORD], place: usize, number: i64| {
        let mut record = record;
        record[place] = number;
        record
    };
    for (what, log) in [
        ("nothing at all", vec![]),
        ("a part of the log", of(&[first, second])),
        ("a log that goes on", of(&[first, second, third, third])),
        (
            "numbers left over",
            [&of(&[first, second, third])[..], &[0]].concat(),
        ),
        ("another cost", of(&[first, with(second, 3, -1), third])),
        ("another way", of(&[first, with(second, 2, 1), third])),
        ("no way", of(&[first, with(second, 2, 2), third])),
        ("another length", of(&[first, with(second, 1, 2), third])),
        (
            "the numbers of the first segments",
            of(&[first, with(second, 0, 2), with(third, 0, 2)]),
        ),
        ("another order", of(&[second, first, third])),
        (
            "runs that leave the same separators, joined at once",
            of(&[first, with(second, 1, 4)]),
        ),
    ] {
        let found = replayed(&LINE, CLOSENESS, &log);
        assert_eq!((found.0, found.1), (20, 0), "{what}");
    }
    let own = of(&[first, second, third]);
    assert_eq!(replayed(&LINE, CLOSENESS, &own).0, 0);
}

/// One closeness more takes a bit off each cost, so a log with joins is that of one closeness only.
#[test]
fn a_log_of_another_closeness_or_line_is_refused() {
    let log = |closeness| logged(&LINE, closeness).numbers();
    for closeness in LEAST_CLOSENESS..=MOST_CLOSENESS {
        for other in LEAST_CLOSENESS..=MOST_CLOSENESS {
            let empty = log(closeness).is_empty() && log(other).is_empty();
            let same = closeness == other || empty;
            let found = replayed(&LINE, other, &log(closeness)).0;
            assert_eq!(found, if same { 0 } else { 20 }, "{closeness} {other}");
        }
    }
    for bin in 0..LINE.len() {
        let mut other = LINE;
        other[bin] += 1;
        let found = replayed(&other, CLOSENESS, &log(CLOSENESS));
        assert_eq!(found.0, 20, "bin {bin}");
    }
}
