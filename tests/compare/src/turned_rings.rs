//! Rings, and the same rings turned (R9). A ring with a single lowest bin opens there wherever its bins begin to number, so
//! its separators move with it, and each mode has the moved bins and its old number. With several lowest bins neither need
//! be so.

use crate::comparison::{listed, modes, same, Agreed, Difference, Failure, Form, Tally};
use crate::mode_groups::ModesCase;
use crate::round_joins::enough;
use reference::rings::Finished;
use reference::turns::{
    contents, lowest_bins, mode_of_each, turned, turned_bin, turned_list, turned_starts,
};

/// What the call is given, the number that it answers with, and by how many bins the ring is turned.
pub struct TurnedCase {
    pub given: ModesCase,
    pub number: u32,
    pub turns: Vec<usize>,
}

/// The rings of a group.
pub enum Kind {
    /// With a single lowest bin: they turn along, or are turned down with the same number.
    SingleLowest,
    /// Served, with several lowest bins: those that do not turn along are counted.
    SeveralLowest,
}

/// Rings by what turning shows on them: how many were found, or how many there have to be.
#[derive(Default)]
pub struct Turns {
    /// Of several modes.
    pub several: u64,
    /// Whose list begins elsewhere after some turn: not with its first separator, turned.
    pub reordered: u64,
    /// Joined past the opening.
    pub joined: u64,
    /// Whose separators do not turn along by some turn.
    pub astray: u64,
    /// With bins that share a mode before some turn and not after it, or the other way round.
    pub parted: u64,
}

#[derive(Default)]
pub struct TurnTally {
    pub rings: u64,
    pub found: Turns,
}

/// What the turns of a ring show, as it is counted.
#[derive(Default)]
struct Shown {
    reordered: bool,
    astray: bool,
    parted: bool,
}

/// A ring's answer, and that of the ring turned.
struct Turn<'a> {
    bins: usize,
    by: usize,
    here: &'a Agreed,
    there: &'a Agreed,
}

impl Kind {
    /// Ring and turned rings, engine and reference side by side, and then with one another.
    pub fn compare(&self, case: &TurnedCase, tally: &mut Tally) -> Result<(), Difference> {
        let here = modes(Form::Ring, &case.given, tally)?;
        self.premise(case, &here)?;
        let mut shown = Shown::default();
        for &by in &case.turns {
            let there = modes(Form::Ring, &case.turned(by), tally)?;
            let turn = Turn {
                bins: case.given.histogram.len(),
                by,
                here: &here,
                there: &there,
            };
            self.judge(&turn, || told(case, by), &mut shown)?;
        }
        tally.turned.count(&here, &shown);
        Ok(())
    }

    /// A turn, judged if the ring has to turn along, and noted for the counts.
    fn judge(
        &self,
        turn: &Turn,
        told: impl Fn() -> String,
        shown: &mut Shown,
    ) -> Result<(), Difference> {
        if self.turns_along() {
            turn.along(told)?;
        }
        shown.reordered |= turn.is_reordered();
        shown.astray |= turn.is_astray();
        shown.parted |= turn.is_parted();
        Ok(())
    }

    fn turns_along(&self) -> bool {
        matches!(self, Kind::SingleLowest)
    }

    /// A ring of another kind, or with another number, would be in the wrong group.
    fn premise(&self, case: &TurnedCase, here: &Agreed) -> Result<(), Difference> {
        let single = lowest_bins(&case.given.histogram) == 1;
        let due = (case.number, self.turns_along());
        let what = || format!("number, and if one bin is lowest, {}", told(case, 0));
        same(what, due, (here.number, single))
    }
}

fn told(case: &TurnedCase, by: usize) -> String {
    let (closeness, places) = (case.given.closeness, case.given.places);
    let bins = listed(&case.given.histogram);
    format!("due and found, ring turned by {by}, closeness {closeness}, {places} places, of {bins}")
}

impl TurnedCase {
    fn turned(&self, by: usize) -> ModesCase {
        ModesCase {
            histogram: turned(&self.given.histogram, by),
            ..self.given
        }
    }
}

impl Turn<'_> {
    /// All that R9 says of a ring with a single lowest bin.
    fn along(&self, told: impl Fn() -> String) -> Result<(), Difference> {
        let (here, there) = (self.here, self.there);
        let what = |name: &str| format!("{name}, {}", told());
        same(|| what("number"), here.number, there.number)?;
        same(|| what("list"), &self.due_list(), &there.separators)?;
        same(
            || what("whether there are modes"),
            here.ring.is_some(),
            there.ring.is_some(),
        )?;
        let (Some(here), Some(there)) = (&here.ring, &there.ring) else {
            return Ok(());
        };
        let (due, found) = self.starts(here, there);
        same(|| what("separators by mode"), due, found)?;
        // The modes as they are numbered, turned, against those that can be read off the list.
        let due = turned(&mode_of_each(here, self.bins), self.by);
        let found = listed_modes(&self.there.separators, self.bins);
        same(
            || what("contents of the modes"),
            contents(&due),
            contents(&found),
        )
    }

    /// The list that the turn of each separator makes.
    fn due_list(&self) -> Vec<usize> {
        turned_list(&self.here.separators, self.bins, self.by)
    }

    /// Which bins share a mode, read off the list of the ring and turned, and off the list of the turned ring.
    fn contents(&self) -> (Vec<usize>, Vec<usize>) {
        let modes = |found: &Agreed| listed_modes(&found.separators, self.bins);
        let due = turned(&modes(self.here), self.by);
        (contents(&due), contents(&modes(self.there)))
    }

    /// The separators in the order of the modes.
    fn starts(&self, here: &Finished, there: &Finished) -> (Vec<usize>, Vec<usize>) {
        let due = turned_starts(&here.starts(), self.bins, self.by);
        (due, there.starts())
    }

    fn is_reordered(&self) -> bool {
        let turned = |&first| turned_bin(first, self.bins, self.by);
        let due = self.here.separators.first().map(turned);
        due.as_ref() != self.there.separators.first()
    }

    fn is_astray(&self) -> bool {
        self.due_list() != self.there.separators
    }

    fn is_parted(&self) -> bool {
        let (due, found) = self.contents();
        due != found
    }
}

/// The separator of each bin's mode, read off a ring's list as the header says: a mode runs from its separator to the bin
/// before the next one, and the bins before the first in the list belong to the mode of the last. A list without
/// separators, that of a call turned down, has no modes.
pub fn listed_modes(list: &[usize], bins: usize) -> Vec<Option<usize>> {
    let at_or_before = |bin: usize| list.iter().rev().find(move |&&start| start <= bin);
    let mode = |bin| at_or_before(bin).or(list.last());
    (0..bins).map(|bin| mode(bin).copied()).collect()
}

impl TurnTally {
    fn count(&mut self, ring: &Agreed, shown: &Shown) {
        let traits = ring.ring.as_ref().map(|ring| ring.traits);
        let found = &mut self.found;
        self.rings += 1;
        found.several += u64::from(ring.separators.len() > 1);
        found.joined += u64::from(traits.unwrap_or_default().past_the_opening > 0);
        found.reordered += u64::from(shown.reordered);
        found.astray += u64::from(shown.astray);
        found.parted += u64::from(shown.parted);
    }

    pub fn told(&self) -> String {
        let told = |(what, found)| format!("{found} {what}");
        let found = self.found.named().map(told).join(", ");
        format!("{} rings, each with its turns: {found}", self.rings)
    }

    /// The least numbers are in thousandths of the rings.
    pub fn check(&self, least: &Turns) -> Result<(), Failure> {
        let found = self.found.named().into_iter();
        let numbers: Vec<(&str, u64, u64)> = found
            .zip(least.named())
            .map(|((what, found), (_, least))| (what, least, found))
            .collect();
        enough("rings", self.rings, &numbers)
    }
}

impl Turns {
    fn named(&self) -> [(&'static str, u64); 5] {
        [
            ("of several modes", self.several),
            ("whose list comes to begin elsewhere", self.reordered),
            ("joined past the opening", self.joined),
            ("that do not turn along", self.astray),
            ("with modes of other contents", self.parted),
        ]
    }
}

#[cfg(test)]
mod tests {
    use super::*;
    use crate::round_joins::FEWEST_JUDGED;
    use reference::rings::finished;

    fn agreed(counts: &[u64]) -> Agreed {
        let ring = finished(counts, 0);
        Agreed {
            number: 0,
            separators: ring.separators(),
            ring: Some(ring),
        }
    }

    /// Three modes that start at bins 3, 5 and 0, and the same ring turned by one bin, as an engine gives it that changes
    /// the answer.
    fn is_noticed(changes: impl FnOnce(&mut Agreed)) -> bool {
        is_noticed_of(&[2, 50, 9, 0, 50, 3, 60], changes)
    }

    fn is_noticed_of(ring: &[u64], changes: impl FnOnce(&mut Agreed)) -> bool {
        let here = agreed(ring);
        let mut there = agreed(&turned(ring, 1));
        changes(&mut there);
        let turn = Turn {
            bins: ring.len(),
            by: 1,
            here: &here,
            there: &there,
        };
        let judged = Kind::SingleLowest.judge(&turn, String::new, &mut Shown::default());
        judged.is_err()
    }

    #[test]
    fn whatever_does_not_turn_along_is_noticed() {
        assert!(!is_noticed(|_| {}));
        assert!(is_noticed(|there| there.number = 8));
        assert!(is_noticed(|there| there.separators[0] = 0));
        assert!(is_noticed(|there| there.separators.truncate(2)));
        assert!(is_noticed(|there| there.separators.rotate_left(1)));
        assert!(is_noticed(|there| there.ring = None));
        // One mode has all bins, wherever it starts.
        assert!(is_noticed_of(&[1, 5, 2], |there| there.separators[0] = 0));
        let ring = |there: &mut Agreed, changes: fn(&mut Finished)| {
            changes(there.ring.as_mut().expect("it is served"));
        };
        // The list is right and its modes have other numbers, as if they numbered from bin 0.
        assert!(is_noticed(|there| ring(there, |r| r.modes.rotate_right(1))));
        assert!(is_noticed(|there| ring(there, |r| r.modes.truncate(2))));
    }

    fn case(histogram: &[u32], number: u32) -> TurnedCase {
        TurnedCase {
            given: ModesCase {
                histogram: histogram.to_vec(),
                closeness: 0,
                places: histogram.len(),
            },
            number,
            turns: vec![1, 2],
        }
    }

    #[test]
    fn a_ring_of_another_kind_or_number_is_noticed() {
        let (single, two) = (&[9, 1, 9, 0, 9], &[1, 9, 0, 0, 9]);
        let holds =
            |kind: Kind, case: &TurnedCase| kind.compare(case, &mut Tally::default()).is_ok();
        assert!(holds(Kind::SingleLowest, &case(single, 0)));
        assert!(!holds(Kind::SingleLowest, &case(two, 0)));
        assert!(holds(Kind::SeveralLowest, &case(two, 0)));
        assert!(!holds(Kind::SeveralLowest, &case(single, 0)));
        assert!(!holds(Kind::SingleLowest, &case(single, 7)));
        assert!(holds(Kind::SingleLowest, &case(&[5], 6)));
        assert!(!holds(Kind::SingleLowest, &case(&[5], 0)));
    }

    /// The second ring does not turn along by 2, nor do the contents of its modes. The third, turned by 2, is the same ring,
    /// with the same one mode. The fourth is joined past its opening, and the list of the last has one separator.
    #[test]
    fn rings_are_counted_by_what_turning_shows() {
        let mut tally = Tally::default();
        for ring in [
            &[9, 1, 9, 0, 9][..],
            &[1, 9, 0, 0, 9],
            &[0, 1, 0, 1],
            &[0, 4, 0, 0, 4],
            &[1, 5, 2],
        ] {
            let single = lowest_bins(ring) == 1;
            let kind = if single {
                Kind::SingleLowest
            } else {
                Kind::SeveralLowest
            };
            assert!(kind.compare(&case(ring, 0), &mut tally).is_ok());
        }
        let TurnTally { rings, found } = tally.turned;
        assert_eq!((rings, found.several, found.reordered), (5, 2, 4));
        assert_eq!((found.joined, found.astray, found.parted), (1, 3, 1));
    }

    /// The second list is that of the header's first ring.
    #[test]
    fn a_mode_is_read_off_the_list() {
        let modes = |list: &[usize], bins| listed_modes(list, bins);
        assert_eq!(modes(&[1], 3), [Some(1); 3]);
        let found: Vec<usize> = modes(&[3, 5], 9).into_iter().flatten().collect();
        assert_eq!(found, [5, 5, 5, 3, 3, 5, 5, 5, 5]);
        assert_eq!(modes(&[], 2), [None; 2]);
    }

    const LEAST: Turns = Turns {
        several: 500,
        reordered: 200,
        joined: 100,
        astray: 20,
        parted: 10,
    };

    fn tally(several: u64, reordered: u64, joined: u64, astray: u64, parted: u64) -> TurnTally {
        TurnTally {
            rings: 1000,
            found: Turns {
                several,
                reordered,
                joined,
                astray,
                parted,
            },
        }
    }

    #[test]
    fn each_number_can_be_too_small() {
        assert!(tally(500, 200, 100, 20, 10).check(&LEAST).is_ok());
        for too_few in [
            tally(499, 200, 100, 20, 10),
            tally(500, 199, 100, 20, 10),
            tally(500, 200, 99, 20, 10),
            tally(500, 200, 100, 19, 10),
            tally(500, 200, 100, 20, 9),
        ] {
            assert!(matches!(too_few.check(&LEAST), Err(Failure::TooFew(_))));
        }
        let few = TurnTally {
            rings: FEWEST_JUDGED - 1,
            ..TurnTally::default()
        };
        assert!(few.check(&LEAST).is_ok());
    }
}
