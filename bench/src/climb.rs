//! A search for lines that take the engine long: hill climbs from the lines of the bench and from random ones, half of
//! which are given up after each round. A line is judged by the work that the engine's search for modes takes, counted
//! in a search of the same order, not by time: so the same seed finds the same line on every machine.

use crate::cases;
use crate::fast::{line_modes_by, pool, total, Block, NO_BLOCK};
use crate::fast_weight::{bar, Largest, Part};
use crate::{engine_separators, fast_separators, print_heading, time_line, CLOSENESS};
use cloths::random::Random;
use reference::calls::{MOST_BINS, MOST_PIXELS};
use std::cmp::Reverse;
use std::process::ExitCode;

const USUAL_SECONDS: u64 = 60;
const USUAL_SEED: u64 = 1;
/// About what a second is enough for.
const WORK_PER_SECOND: u64 = 3_000_000_000;
const STARTS: usize = 32;
/// Half of the climbers are left after each round, and one for the last.
const ROUNDS: u64 = STARTS.ilog2() as u64 + 1;
const MOST_COUNTS: u64 = MOST_PIXELS as u64;
const NUMBERS_IN_A_ROW: usize = 16;

/// About what the engine takes in instructions for a bin that is pooled, for a part that is passed over, and for one that
/// is weighed. They only weigh the three against each other.
const WORK_OF_A_BIN: u64 = 20;
const WORK_OF_A_PART: u64 = 27;
const WORK_OF_A_WEIGHT: u64 = 700;

/// A stretch and its fit, as the engine keeps them: the counts before each bin, and each bin's block.
struct Fitted {
    before: Vec<u64>,
    blocks: Vec<Block>,
}

impl Fitted {
    fn new(stretch: &[u32], rising: bool) -> Fitted {
        let mut before = vec![0];
        for &bin in stretch {
            before.push(before[before.len() - 1] + u64::from(bin));
        }
        let mut stack = [NO_BLOCK; MOST_BINS];
        let places = pool(stretch, rising, &mut stack).iter();
        let blocks = places
            .flat_map(|&block| block.bins().map(move |_| block))
            .collect();
        Fitted { before, blocks }
    }

    fn part(&self, first: usize, last: usize) -> Part {
        let (p, q) = (self.blocks[first], self.blocks[last]);
        let count = self.before[last + 1] - self.before[first];
        if p.first == q.first {
            let mass = (last + 1 - first) as u64 * u64::from(q.sum);
            return Part {
                count,
                mass,
                over: u64::from(q.len),
            };
        }
        let (len, last_len) = (u64::from(p.len), u64::from(q.len));
        let tail = (p.bins().end - first) as u64 * u64::from(p.sum);
        let between = self.before[q.bins().start] - self.before[p.bins().end];
        let head = (last + 1 - q.bins().start) as u64 * u64::from(q.sum);
        let mass = tail * last_len + between * len * last_len + head * len;
        Part {
            count,
            mass,
            over: len * last_len,
        }
    }
}

/// A capped cost, found in the engine's order: the parts that end at each bin in turn, first those within blocks, then
/// those across.
fn cost(stretch: &[u32], rising: bool, cap: i64, work: &mut u64) -> i64 {
    let bar = bar(stretch.len(), CLOSENESS);
    let mut largest = Largest::new(total(stretch));
    if largest.weight >= cap + bar {
        return -bar;
    }
    *work += WORK_OF_A_BIN * stretch.len() as u64;
    let fitted = Fitted::new(stretch, rising);
    for within in [true, false] {
        for last in 0..stretch.len() {
            let start = fitted.blocks[last].bins().start;
            for first in if within { start..last + 1 } else { 0..start } {
                let part = fitted.part(first, last);
                *work += WORK_OF_A_PART;
                if !largest.covers(part) {
                    *work += WORK_OF_A_WEIGHT;
                    largest.raise(largest.weigh(part));
                    if largest.weight >= cap + bar {
                        return largest.weight - bar;
                    }
                }
            }
        }
    }
    largest.weight - bar
}

struct Climber {
    line: Vec<u32>,
    work: u64,
}

impl Climber {
    fn new(line: Vec<u32>) -> Climber {
        let mut work = 0;
        line_modes_by(&line, &mut [0; MOST_BINS], |stretch, rising, cap| {
            cost(stretch, rising, cap, &mut work)
        });
        Climber { line, work }
    }

    /// Climbs until so much work is done. A change that takes as much work as before is kept too, so that the climb does
    /// not end on level ground.
    fn climb(&mut self, random: &mut Random, work: u64) {
        let mut done = 0;
        while done < work {
            let mut line = self.line.clone();
            for _ in 0..1 + random.below(3) {
                change(&mut line, random);
            }
            if total(&line) > MOST_COUNTS {
                continue;
            }
            let changed = Climber::new(line);
            done += changed.work;
            if changed.work >= self.work {
                *self = changed;
            }
        }
    }
}

fn change(line: &mut [u32], random: &mut Random) {
    let bin = random.below(line.len());
    let len = 1 + random.below(line.len() - bin);
    match random.below(7) {
        0 => line[bin] += 1,
        1 => line[bin] = line[bin].saturating_sub(1),
        2 => line[bin] = random.within(0, 2 * line[bin] + 2),
        3 => line.swap(bin, random.below(MOST_BINS)),
        4 => line[bin..bin + len].iter_mut().for_each(|bin| *bin *= 2),
        5 => line[bin..bin + len].iter_mut().for_each(|bin| *bin /= 2),
        _ => {
            // A piece is laid elsewhere.
            let len = len.min(1 + random.below(32));
            let to = random.below(line.len() - len + 1);
            line.copy_within(bin..bin + len, to);
        }
    }
}

/// The long lines of the bench, then random ones: any heights, or highs and lows by turns.
fn starts(random: &mut Random) -> Vec<Climber> {
    let known = cases::lines().into_iter().map(|case| case.line.histogram);
    let mut starts: Vec<Climber> = known
        .filter(|line| line.len() == MOST_BINS)
        .map(Climber::new)
        .collect();
    while starts.len() < STARTS {
        let most = 1 << random.below(8);
        let turns = random.coin();
        let height = |bin: usize| match (turns, bin % 2) {
            (true, 0) => 0,
            _ => random.within(0, most),
        };
        starts.push(Climber::new((0..MOST_BINS).map(height).collect()));
    }
    starts
}

/// `words` are the seconds and the seed, as far as given.
pub fn run(words: &[&str]) -> ExitCode {
    let number = |place: usize, usual| words.get(place).map_or(Ok(usual), |word| word.parse());
    let (Ok(seconds), Ok(seed)) = (number(0, USUAL_SECONDS), number(1, USUAL_SEED)) else {
        eprintln!("usage: bench --climb [SECONDS [SEED]]");
        return ExitCode::from(2);
    };
    let mut random = Random::new(seed);
    let mut climbers = starts(&mut random);
    let round = seconds.saturating_mul(WORK_PER_SECOND) / ROUNDS;
    loop {
        let share = round / climbers.len() as u64;
        for climber in &mut climbers {
            climber.climb(&mut random, share);
        }
        climbers.sort_by_key(|climber| Reverse(climber.work));
        println!("{:2} lines, work {:11}", climbers.len(), climbers[0].work);
        if climbers.len() == 1 {
            return report(climbers.swap_remove(0).line);
        }
        climbers.truncate(climbers.len() / 2);
    }
}

/// Prints the line and how long it takes, unless the two programs differ on it.
fn report(line: Vec<u32>) -> ExitCode {
    for row in line.chunks(NUMBERS_IN_A_ROW) {
        let row: Vec<String> = row.iter().map(u32::to_string).collect();
        println!("{},", row.join(", "));
    }
    if fast_separators(&line, CLOSENESS) != engine_separators(&line, CLOSENESS) {
        eprintln!("not timed, wrong: the separators of the two differ");
        return ExitCode::FAILURE;
    }
    print_heading();
    time_line(cases::Case {
        name: "256 bins, found",
        histogram: line,
    });
    ExitCode::SUCCESS
}
