//! How many rings were joined round the ring, and how many there have to be: a group of rings that are made for such
//! joins compares nothing of them once it has none. And how many have modes that are not in the order of bin numbers: on
//! no other ring does it show if the list of its separators goes from the opening, or if a card is made from that list.

use crate::comparison::Failure;
use reference::rings::RingTraits;

/// Rings, or hue rings of cards, by their joins round the ring and by the order of their modes.
#[derive(Default)]
pub struct RoundTally {
    pub rings: u64,
    pub joined: u64,
    /// Joined more than once.
    pub again: u64,
    /// Joined, with two modes or more left.
    pub divided: u64,
    /// With a run of three modes or more that was joined.
    pub long: u64,
    /// With modes that are not in the order of bin numbers, which is that of the list.
    pub rotated: u64,
}

impl RoundTally {
    pub fn count(&mut self, traits: RingTraits, modes_left: usize) {
        self.rings += 1;
        self.joined += u64::from(traits.joins > 0);
        self.again += u64::from(traits.joins > 1);
        self.divided += u64::from(traits.joins > 0 && modes_left > 1);
        self.long += u64::from(traits.longest > 2);
        self.rotated += u64::from(traits.rotated);
    }

    pub fn told(&self) -> String {
        format!(
            "{} joined round the ring, {} of them more than once, {} into several modes, {} by runs of 3 or more; \
            {} with modes not in the order of bin numbers",
            self.joined, self.again, self.divided, self.long, self.rotated
        )
    }
}

/// The least numbers of a group, each in thousandths of its rings.
pub struct Least {
    pub joined: u64,
    pub again: u64,
    pub divided: u64,
    pub long: u64,
    pub rotated: u64,
}

/// Of fewer rings the shares can be small by chance, so nothing is asked of them.
pub const FEWEST_JUDGED: u64 = 500;

impl Least {
    pub fn check(&self, tally: &RoundTally) -> Result<(), Failure> {
        let numbers = [
            ("joined round the ring", self.joined, tally.joined),
            ("joined more than once", self.again, tally.again),
            ("joined into several modes", self.divided, tally.divided),
            ("joined by runs of 3 or more", self.long, tally.long),
            (
                "with modes not in the order of bin numbers",
                self.rotated,
                tally.rotated,
            ),
        ];
        enough("rings", tally.rings, &numbers)
    }
}

/// Each number is what is counted, the least of it in thousandths of all rings or lines, and how many were found.
pub fn enough(forms: &str, all: u64, numbers: &[(&str, u64, u64)]) -> Result<(), Failure> {
    if all < FEWEST_JUDGED {
        return Ok(());
    }
    for &(what, least, found) in numbers {
        let least = least * all / 1000;
        if found < least {
            return Err(Failure::TooFew(format!(
                "{what}: {found} of {all} {forms}, but {least} at least are to be compared"
            )));
        }
    }
    Ok(())
}

#[cfg(test)]
mod tests {
    use super::*;

    const LEAST: Least = Least {
        joined: 500,
        again: 200,
        divided: 100,
        long: 2,
        rotated: 50,
    };

    fn tally(joined: u64, again: u64, divided: u64, long: u64, rotated: u64) -> RoundTally {
        RoundTally {
            rings: 1000,
            joined,
            again,
            divided,
            long,
            rotated,
        }
    }

    #[test]
    fn each_number_can_be_too_small() {
        assert!(LEAST.check(&tally(500, 200, 100, 2, 50)).is_ok());
        for too_few in [
            tally(499, 200, 100, 2, 50),
            tally(500, 199, 100, 2, 50),
            tally(500, 200, 99, 2, 50),
            tally(500, 200, 100, 1, 50),
            tally(500, 200, 100, 2, 49),
        ] {
            assert!(matches!(LEAST.check(&too_few), Err(Failure::TooFew(_))));
        }
    }

    #[test]
    fn few_rings_are_not_judged() {
        for (rings, judged) in [(FEWEST_JUDGED - 1, false), (FEWEST_JUDGED, true)] {
            let none = RoundTally {
                rings,
                ..RoundTally::default()
            };
            assert_eq!(LEAST.check(&none).is_err(), judged);
        }
    }

    #[test]
    fn rings_are_counted_by_kind() {
        let mut tally = RoundTally::default();
        for (joins, longest, modes_left, rotated) in [
            (0, 0, 3, true),
            (1, 2, 1, false),
            (2, 3, 2, true),
            (0, 0, 2, true),
        ] {
            let traits = RingTraits {
                joins,
                past_the_opening: joins,
                longest,
                rotated,
            };
            tally.count(traits, modes_left);
        }
        let RoundTally {
            rings,
            joined,
            again,
            divided,
            long,
            rotated,
        } = tally;
        let counted = [rings, joined, again, divided, long, rotated];
        assert_eq!(counted, [4, 2, 1, 1, 1, 3]);
    }
}
