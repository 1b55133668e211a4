//! Compares the engine, through its static library, with the reference.
//!
//! In `tests/`, after `tools/library` at the repository's root:
//!
//!     cargo run --release -p compare -- [--seed S] [--count N] [--only CALLS]
//!
//! CALLS is one of measures, fits, verdicts, lines, rings, turns, logs, cards, widenings, texts and stored; turns are rings
//! that are turned as well, logs are those of the joins of lines, written and replayed, widenings those of labels of one
//! byte. KISTROVU_LIB names another folder to take `libkistrovu.a` from; KISTROVU_CARD names the card program, which is then
//! run on the stored swatches too.
//! Without arguments the run is the same every time: all pixels, the listed histograms, lines, rings, swatches and texts,
//! and random ones: `COUNT` histograms, and the shares of `COUNT` that the lists of groups give. Each group prints a
//! line; at the first difference a group ends with the input and both answers. A group of rings or swatches made for joins
//! round the ring, or for modes that are not in the order of bin numbers, also fails if it has too few of them, and so does
//! a group of turned rings with too few on which a turn shows, and a group of logs with too few that show how joins are
//! numbered, which way they are made or that a spoiled log is turned down. Groups of cards and texts made for many entries
//! fail if too few have more than 255, exactly the most or too many, and groups of widenings if too few are served or
//! turned down. Every card of at most 255 entries is compared with the card under that limit as well, its labels of one
//! byte widened by the engine. The last line is the number of groups passed and failed, and the exit code is 1 if one
//! failed.

use cloths::random::Random;
use compare::card_groups::CARDS;
use compare::comparison::{self, Calls, Difference, Failure, Form, Tally};
use compare::groups::GROUPS;
use compare::log_groups;
use compare::mode_groups::{ModesSource, BOTH, LINES, RINGS};
use compare::round_joins::Least;
use compare::text_groups::{GROUNDS, TEXTS};
use compare::turned_groups::TURNED;
use compare::widening_groups::WIDENINGS;
use compare::{card_comparison, least, logs, stored, widenings};
use std::process::ExitCode;

const SEED: u64 = 1;
const COUNT: usize = 100_000;
/// The first streams of each kind of groups, far enough apart that one group more moves none of the others.
const LINE_STREAMS: usize = 100;
const RING_STREAMS: usize = 200;
const CARD_STREAMS: usize = 300;
const TEXT_STREAMS: usize = 400;
const PROGRAM_STREAM: usize = 500;
const GROUND_STREAMS: usize = 600;
const TURN_STREAMS: usize = 700;
const LOG_STREAMS: usize = 800;
const WIDENING_STREAMS: usize = 900;
const USAGE: &str = "usage: compare [--seed S] [--count N] \
    [--only measures|fits|verdicts|lines|rings|turns|logs|cards|widenings|texts|stored]";

struct Options {
    seed: u64,
    count: usize,
    calls: Calls,
}

fn main() -> ExitCode {
    let options = match options(std::env::args().skip(1)) {
        Ok(options) => options,
        Err(wrong) => {
            eprintln!("{wrong}\n{USAGE}");
            return ExitCode::from(2);
        }
    };
    let (passed, failed) = run(&options);
    println!("{passed} passed, {failed} failed");
    ExitCode::from(u8::from(failed > 0))
}

fn options(mut words: impl Iterator<Item = String>) -> Result<Options, String> {
    let mut options = Options {
        seed: SEED,
        count: COUNT,
        calls: Calls::all(true),
    };
    while let Some(word) = words.next() {
        let value = words.next().ok_or(format!("{word} wants a value"))?;
        let number = || {
            value
                .parse::<u64>()
                .map_err(|_| format!("{value} is not a number"))
        };
        match word.as_str() {
            "--seed" => options.seed = number()?,
            "--count" => options.count = number()? as usize,
            "--only" => options.calls = Calls::only(&value).ok_or(format!("unknown: {value}"))?,
            _ => return Err(format!("unknown: {word}")),
        }
    }
    Ok(options)
}

/// The groups that were compared so far.
struct Run<'a> {
    options: &'a Options,
    passed: usize,
    failed: usize,
}

/// How many groups passed and failed.
fn run(options: &Options) -> (usize, usize) {
    let mut run = Run {
        options,
        passed: 0,
        failed: 0,
    };
    println!("seed {}, {} drawn histograms", options.seed, options.count);
    let calls = options.calls;
    if calls.measures {
        let mut tally = Tally::default();
        let outcome = comparison::every_pixel(&mut tally);
        run.note("measures of every pixel", tally, outcome);
    }
    if calls.fits || calls.verdicts {
        run.histograms();
    }
    if calls.lines {
        run.modes(Form::Line, &LINES, LINE_STREAMS);
    }
    if calls.rings {
        run.modes(Form::Ring, &RINGS, RING_STREAMS);
    }
    if calls.turns {
        run.turned_rings();
    }
    if calls.logs {
        run.logs();
    }
    if calls.cards {
        run.cards();
    }
    if calls.widenings {
        run.widenings();
    }
    if calls.texts {
        run.texts();
        run.grounds();
    }
    if calls.stored {
        run.stored();
    }
    (run.passed, run.failed)
}

impl Run<'_> {
    fn note<F: Into<Failure>>(&mut self, name: &str, tally: Tally, outcome: Result<(), F>) {
        match outcome {
            Ok(()) => self.passed += 1,
            Err(_) => self.failed += 1,
        }
        report(name, &tally, outcome.err().map(F::into));
    }

    /// Each group draws from a stream of its own, so that a change of one leaves the others as they were.
    fn stream(&self, index: usize) -> Random {
        Random::new(Random::new(self.options.seed).bits() ^ index as u64)
    }

    fn histograms(&mut self) {
        for (index, (name, source)) in GROUPS.iter().enumerate() {
            let mut tally = Tally::default();
            let cases = source.cases(&mut self.stream(index), self.options.count);
            let outcome = cases
                .iter()
                .try_for_each(|case| comparison::case(case, self.options.calls, &mut tally));
            self.note(name, tally, outcome);
        }
    }

    fn modes(&mut self, form: Form, groups: &[(&str, ModesSource)], first_stream: usize) {
        for (index, (name, source)) in BOTH.iter().chain(groups).enumerate() {
            let mut tally = Tally::default();
            let mut random = self.stream(first_stream + index);
            let cases = source.cases(&mut random, self.options.count);
            let outcome = cases
                .iter()
                .try_for_each(|case| comparison::modes(form, case, &mut tally).map(drop));
            let outcome = judged(outcome, source.least(), &tally);
            self.note(&format!("{}, {name}", form.name()), tally, outcome);
        }
    }

    fn turned_rings(&mut self) {
        for (index, group) in TURNED.iter().enumerate() {
            let mut tally = Tally::default();
            let mut random = self.stream(TURN_STREAMS + index);
            let cases = (group.cases)(&mut random, self.options.count);
            let outcome = cases
                .iter()
                .try_for_each(|case| group.kind.compare(case, &mut tally));
            let outcome = outcome
                .map_err(Failure::from)
                .and_then(|()| tally.turned.check(&group.least));
            self.note(&format!("ring turned, {}", group.name), tally, outcome);
        }
    }

    fn logs(&mut self) {
        for (index, group) in log_groups::groups().iter().enumerate() {
            let mut tally = Tally::default();
            let mut random = self.stream(LOG_STREAMS + index);
            let cases = group.cases.cases(&mut random, self.options.count);
            let mut placed = cases.iter().enumerate();
            let outcome = placed.try_for_each(|(place, case)| {
                logs::compare(case, place, group.spoiled, &mut tally)
            });
            let outcome = outcome
                .map_err(Failure::from)
                .and_then(|()| tally.logs.check(&group.least));
            self.note(&format!("log, {}", group.name), tally, outcome);
        }
    }

    fn cards(&mut self) {
        for (index, (name, source)) in CARDS.iter().enumerate() {
            let mut tally = Tally::default();
            let mut random = self.stream(CARD_STREAMS + index);
            let outcome = source.each(&mut random, self.options.count, |case| {
                card_comparison::card(case, &mut tally)
            });
            let outcome = outcome
                .map_err(Failure::from)
                .and_then(|()| source.check(&tally));
            self.note(&format!("card, {name}"), tally, outcome);
        }
    }

    fn widenings(&mut self) {
        for (index, group) in WIDENINGS.iter().enumerate() {
            let mut tally = Tally::default();
            let mut random = self.stream(WIDENING_STREAMS + index);
            let cases = (group.cases)(&mut random, self.options.count);
            let outcome = cases
                .iter()
                .try_for_each(|case| widenings::compare(case, &mut tally));
            let found = tally.widenings.found.named();
            let outcome = outcome
                .map_err(Failure::from)
                .and_then(|()| least::reached(found, group.least.named()));
            self.note(&format!("labels widened, {}", group.name), tally, outcome);
        }
    }

    fn texts(&mut self) {
        for (index, (name, source)) in TEXTS.iter().enumerate() {
            let mut tally = Tally::default();
            let mut random = self.stream(TEXT_STREAMS + index);
            let outcome = source.each(&mut random, self.options.count, |text| {
                card_comparison::text(text, &mut tally)
            });
            let outcome = outcome
                .map_err(Failure::from)
                .and_then(|()| source.check(&tally));
            self.note(&format!("text, {name}"), tally, outcome);
        }
    }

    fn grounds(&mut self) {
        for (index, (name, numbers)) in GROUNDS.iter().enumerate() {
            let mut tally = Tally::default();
            let mut random = self.stream(GROUND_STREAMS + index);
            let outcome = numbers(&mut random, self.options.count)
                .into_iter()
                .try_for_each(|number| card_comparison::ground(number, &mut tally));
            self.note(&format!("line of a ground, {name}"), tally, outcome);
        }
    }

    fn stored(&mut self) {
        let mut tally = Tally::default();
        let outcome = stored::by_calls(&mut tally);
        self.note("stored swatches, by the calls", tally, outcome);
        let Some(program) = stored::program() else {
            println!("-      stored swatches, by the program: not run, KISTROVU_CARD is not set");
            return;
        };
        let mut tally = Tally::default();
        let outcome = stored::by_program(&program, &mut tally);
        self.note("stored swatches, by the program", tally, outcome);
        let mut tally = Tally::default();
        let mut random = self.stream(PROGRAM_STREAM);
        let outcome = stored::long_by_program(&program, &mut random, &mut tally);
        self.note("very long texts, by the program", tally, outcome);
    }
}

/// Where nothing differs, there are to be enough joins round the ring, and enough modes not in the order of bin numbers.
fn judged(
    outcome: Result<(), Difference>,
    least: Option<&Least>,
    tally: &Tally,
) -> Result<(), Failure> {
    outcome?;
    least.map_or(Ok(()), |least| least.check(&tally.round))
}

fn report(name: &str, tally: &Tally, failure: Option<Failure>) {
    let outcome = if failure.is_some() { "FAILED" } else { "ok" };
    println!("{outcome:6} {name}: {}", compared(tally));
    match failure {
        None => {}
        Some(Failure::TooFew(told)) => println!("  too few {told}"),
        Some(Failure::Difference(difference)) => {
            println!("  {}", difference.input);
            println!("  reference: {}", difference.reference);
            println!("  engine:    {}", difference.engine);
        }
    }
}

fn compared(tally: &Tally) -> String {
    if tally.measures > 0 {
        format!("{} pixels, {} grey", tally.measures, tally.grey)
    } else if tally.logs.written > 0 {
        let (served, turned_down) = (tally.served, tally.turned_down);
        let told = tally.logs.told();
        format!("{served} served, {turned_down} turned down; {told}")
    } else if tally.widenings.calls > 0 {
        tally.widenings.told()
    } else if tally.modes > 0 || tally.cards > 0 {
        compared_modes(tally)
    } else if tally.texts > 0 {
        compared_texts(tally)
    } else if tally.lines > 0 {
        format!("{} numbers", tally.lines)
    } else if tally.stored > 0 {
        format!("{} swatches", tally.stored)
    } else {
        format!(
            "{} histograms, {} fits, {} verdicts, {} served, {} turned down, {} rejected",
            tally.histograms,
            tally.fits,
            tally.verdicts,
            tally.served,
            tally.turned_down,
            tally.rejected
        )
    }
}

/// Of lines, rings and cards. Nothing is joined round a line.
fn compared_modes(tally: &Tally) -> String {
    let calls = format!("{} served, {} turned down", tally.served, tally.turned_down);
    let several = tally.several;
    let mut told = if tally.cards > 0 {
        let (cards, most) = (tally.cards, tally.most);
        format!("{cards} swatches, {calls}, {several} of several entries, {most} at most")
    } else {
        format!(
            "{} histograms, {calls}, {several} of several modes",
            tally.modes
        )
    };
    if tally.round.rings > 0 {
        told += &format!(", {}", tally.round.told());
    }
    if tally.turned.rings > 0 {
        told += &format!("; {}", tally.turned.told());
    }
    if tally.cards > 0 {
        told += &format!("; {}", least::told(tally.entries.named()));
    }
    told
}

fn compared_texts(tally: &Tally) -> String {
    let numbers = tally.grounds.iter().enumerate().skip(1);
    let grounds = numbers.filter(|(_, &count)| count > 0);
    let down: Vec<String> = grounds
        .map(|(n, count)| format!("{count} with {n}"))
        .collect();
    let down = down.join(", ");
    let entries = least::told(tally.entries.named());
    format!(
        "{} texts, {} served, {} turned down ({down}); cards: {entries}",
        tally.texts, tally.served, tally.turned_down
    )
}
