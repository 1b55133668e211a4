//! Engine and reference side by side: what was compared, and the first difference.

use crate::entry_counts::EntryCounts;
use crate::groups::Case;
use crate::logs::LogTally;
use crate::mode_groups::ModesCase;
use crate::round_joins::RoundTally;
use crate::turned_rings::TurnTally;
use crate::widenings::WideningTally;
use engine::IntoRaw;
use reference::calls::{self, ModesAnswer};
use reference::rings::Finished;
use std::fmt::Debug;

/// The calls that are compared in this run.
#[derive(Clone, Copy)]
pub struct Calls {
    pub measures: bool,
    pub fits: bool,
    pub verdicts: bool,
    pub lines: bool,
    pub rings: bool,
    pub turns: bool,
    pub logs: bool,
    pub cards: bool,
    pub widenings: bool,
    pub texts: bool,
    pub stored: bool,
}

impl Calls {
    pub fn all(compared: bool) -> Calls {
        Calls {
            measures: compared,
            fits: compared,
            verdicts: compared,
            lines: compared,
            rings: compared,
            turns: compared,
            logs: compared,
            cards: compared,
            widenings: compared,
            texts: compared,
            stored: compared,
        }
    }

    /// By name.
    pub fn only(name: &str) -> Option<Calls> {
        let mut calls = Calls::all(false);
        let call = match name {
            "measures" => &mut calls.measures,
            "fits" => &mut calls.fits,
            "verdicts" => &mut calls.verdicts,
            "lines" => &mut calls.lines,
            "rings" => &mut calls.rings,
            "turns" => &mut calls.turns,
            "logs" => &mut calls.logs,
            "cards" => &mut calls.cards,
            "widenings" => &mut calls.widenings,
            "texts" => &mut calls.texts,
            "stored" => &mut calls.stored,
            _ => return None,
        };
        *call = true;
        Some(calls)
    }
}

/// Bins in a line, or round a ring.
#[derive(Clone, Copy)]
pub enum Form {
    Line,
    Ring,
}

#[derive(Default)]
pub struct Tally {
    pub histograms: u64,
    pub measures: u64,
    pub fits: u64,
    pub verdicts: u64,
    pub modes: u64,
    pub cards: u64,
    pub texts: u64,
    pub stored: u64,
    /// Lines of grounds.
    pub lines: u64,
    /// Of several modes, or of several entries.
    pub several: u64,
    /// The most entries of a card.
    pub most: u32,
    /// Of cards, and of texts.
    pub entries: EntryCounts,
    /// Texts by number.
    pub grounds: [u64; 12],
    pub served: u64,
    pub turned_down: u64,
    pub rejected: u64,
    pub grey: u64,
    /// Of rings, and of the hue rings of cards.
    pub round: RoundTally,
    /// Of rings that were also turned.
    pub turned: TurnTally,
    /// Of lines whose joins were logged.
    pub logs: LogTally,
    /// Of label lists of one byte each.
    pub widenings: WideningTally,
}

impl Tally {
    pub fn count(&mut self, number: u32) {
        if number == 0 {
            self.served += 1;
        } else {
            self.turned_down += 1;
        }
    }
}

/// A call's input and both answers, in full, as text.
pub struct Difference {
    pub input: String,
    pub reference: String,
    pub engine: String,
}

/// Why a group fails.
pub enum Failure {
    Difference(Difference),
    /// Nothing differed, but too little was compared: of what, and how much.
    TooFew(String),
}

impl From<Difference> for Failure {
    fn from(difference: Difference) -> Failure {
        Failure::Difference(difference)
    }
}

pub fn same<T: Debug + PartialEq>(
    input: impl Fn() -> String,
    reference: T,
    engine: T,
) -> Result<(), Difference> {
    if reference == engine {
        return Ok(());
    }
    Err(Difference {
        input: input(),
        reference: format!("{reference:?}"),
        engine: format!("{engine:?}"),
    })
}

pub fn every_pixel(tally: &mut Tally) -> Result<(), Difference> {
    for red in 0..=255 {
        for green in 0..=255 {
            for blue in 0..=255 {
                let expected = calls::measures(red, green, blue);
                let answer = engine::measures(red, green, blue);
                tally.measures += 1;
                tally.count(expected.number);
                tally.grey += u64::from(expected.measures.grey);
                same(
                    || format!("measures of {red} {green} {blue}"),
                    expected.into_raw(),
                    answer,
                )?;
            }
        }
    }
    Ok(())
}

pub fn case(case: &Case, calls: Calls, tally: &mut Tally) -> Result<(), Difference> {
    tally.histograms += 1;
    for rising in [true, false] {
        if calls.fits {
            fit(&case.histogram, rising, tally)?;
        }
        if calls.verdicts {
            for &closeness in &case.closenesses {
                verdict(&case.histogram, rising, closeness, tally)?;
            }
        }
    }
    Ok(())
}

fn fit(histogram: &[u32], rising: bool, tally: &mut Tally) -> Result<(), Difference> {
    let mut lent = histogram.to_vec();
    let answer = engine::fit(&mut lent, rising);
    let expected = calls::fit(histogram, rising);
    tally.fits += 1;
    tally.count(expected.number);
    let input = || format!("fit, {}, of {}", direction(rising), listed(histogram));
    same(input, expected.into_raw(), answer)?;
    same(|| format!("histogram after {}", input()), histogram, &lent)
}

fn verdict(
    histogram: &[u32],
    rising: bool,
    closeness: i32,
    tally: &mut Tally,
) -> Result<(), Difference> {
    let mut lent = histogram.to_vec();
    let answer = engine::verdict(&mut lent, rising, closeness);
    let expected = calls::verdict(histogram, rising, closeness);
    tally.verdicts += 1;
    tally.count(expected.number);
    tally.rejected += u64::from(expected.verdict.rejected);
    let input = || {
        format!(
            "verdict, {}, closeness {closeness}, of {}",
            direction(rising),
            listed(histogram)
        )
    };
    same(input, expected.into_raw(), answer)?;
    same(|| format!("histogram after {}", input()), histogram, &lent)
}

/// Places behind the list that was lent: they are not the engine's to write.
pub const BEHIND: usize = 4;

/// What the engine gave where it agrees with the reference, for whoever asks more of it.
pub struct Agreed {
    pub number: u32,
    /// The list that was lent, as far as it was written.
    pub separators: Vec<usize>,
    /// The reference's ring, if it is one and was served.
    pub ring: Option<Finished>,
}

pub fn modes(form: Form, case: &ModesCase, tally: &mut Tally) -> Result<Agreed, Difference> {
    let ModesCase {
        histogram,
        closeness,
        places,
    } = case;
    let mut lent = histogram.clone();
    let mut list = unwritten(places + BEHIND);
    let mut expected_list = list.clone();
    let (engine_list, reference_list) = (&mut list[..*places], &mut expected_list[..*places]);
    let engine_modes = match form {
        Form::Line => engine::line_modes,
        Form::Ring => engine::ring_modes,
    };
    let answer = engine_modes(&mut lent, *closeness, engine_list);
    let (expected, ring) = expected_modes(form, case, reference_list, &mut tally.round);
    tally.modes += 1;
    tally.count(expected.number);
    let input = || {
        let form = form.name();
        let bins = listed(histogram);
        format!("modes, {form}, closeness {closeness}, {places} places, of {bins}")
    };
    let count = expected.separators as usize;
    tally.several += u64::from(count > form.separators_of_one_mode());
    let expected = (expected.into_raw(), expected_list);
    let answer = (answer, list);
    same(input, &expected, &answer)?;
    same(|| format!("histogram after {}", input()), histogram, &lent)?;
    let written = answer.1[..count].iter();
    Ok(Agreed {
        number: answer.0.number,
        separators: written.map(|&bin| bin as usize).collect(),
        ring,
    })
}

/// The reference's answer; of a ring also its modes, which are counted by their traits.
fn expected_modes(
    form: Form,
    case: &ModesCase,
    list: &mut [u32],
    round: &mut RoundTally,
) -> (ModesAnswer, Option<Finished>) {
    let (histogram, closeness) = (&case.histogram, case.closeness);
    if let Form::Line = form {
        return (calls::line_modes(histogram, closeness, list), None);
    }
    let (answer, ring) = calls::ring_modes_and_ring(histogram, closeness, list);
    let traits = ring.as_ref().map(|ring| ring.traits);
    round.count(traits.unwrap_or_default(), answer.separators as usize);
    (answer, ring)
}

impl Form {
    pub fn name(self) -> &'static str {
        match self {
            Form::Line => "line",
            Form::Ring => "ring",
        }
    }

    /// The end of a line is a separator too.
    fn separators_of_one_mode(self) -> usize {
        match self {
            Form::Line => 2,
            Form::Ring => 1,
        }
    }
}

/// Numbers that are no bins, each another one, so that every place that is written shows.
pub fn unwritten(places: usize) -> Vec<u32> {
    (0..places as u32).map(|place| 1_000_000 + place).collect()
}

fn direction(rising: bool) -> &'static str {
    if rising {
        "increasing"
    } else {
        "decreasing"
    }
}

pub fn listed(histogram: &[u32]) -> String {
    format!("{} bins {histogram:?}", histogram.len())
}
