//! Labels of one byte that are widened, engine and reference side by side. Lists are long, so only the first label that
//! differs is shown.

use crate::comparison::{same, Difference, Tally};
use crate::labels::{inside, lent, AROUND};
use crate::least::{told, Named};
use reference::calls::{widen_labels, MOST_PIXELS};

/// Labels of one byte each, and how many places are lent for the labels that they become.
pub struct WideningCase {
    pub narrow: Vec<u8>,
    pub places: usize,
}

/// Calls by their lists: how many were found, or how many there have to be.
#[derive(Clone, Copy, Debug, Default, PartialEq, Eq)]
pub struct Widenings {
    pub served: u64,
    /// Served, with each byte among the labels.
    pub of_every_byte: u64,
    /// Served, with labels for more pixels than an image may have.
    pub long: u64,
    /// Turned down for want of places.
    pub short_of_places: u64,
    /// Turned down for places that are left over.
    pub places_left: u64,
}

#[derive(Default)]
pub struct WideningTally {
    pub calls: u64,
    /// All labels that were widened.
    pub labels: u64,
    pub found: Widenings,
}

pub fn compare(case: &WideningCase, tally: &mut Tally) -> Result<(), Difference> {
    let WideningCase { narrow, places } = case;
    let (mut bytes, mut labels) = (narrow.clone(), lent(*places));
    let number = engine::widen_labels(&mut bytes, inside(&mut labels));
    let mut expected_labels = lent(*places);
    let expected = widen_labels(narrow, inside(&mut expected_labels));
    tally.count(expected);
    tally.widenings.count(case, expected);
    let place = (0..labels.len()).find(|&place| labels[place] != expected_labels[place]);
    let label = |labels: &[u16]| place.map(|place| (place as i64 - AROUND as i64, labels[place]));
    let input = || {
        let (count, first) = (narrow.len(), &narrow[..narrow.len().min(40)]);
        format!("widening of {count} labels {first:?}, {places} places: number and (place, label)")
    };
    same(
        input,
        (expected, label(&expected_labels)),
        (number, label(&labels)),
    )?;
    let unchanged = || format!("labels of one byte after the {}", input());
    same(unchanged, true, bytes == *narrow)
}

impl WideningTally {
    fn count(&mut self, case: &WideningCase, number: u32) {
        let found = &mut self.found;
        let (count, places) = (case.narrow.len(), case.places);
        let served = number == 0;
        self.calls += 1;
        self.labels += if served { count as u64 } else { 0 };
        found.served += u64::from(served);
        found.of_every_byte += u64::from(served && has_every_byte(&case.narrow));
        found.long += u64::from(served && count as u128 > MOST_PIXELS);
        found.short_of_places += u64::from(!served && places < count);
        found.places_left += u64::from(!served && places > count);
    }

    pub fn told(&self) -> String {
        let found = told(self.found.named());
        format!("{} calls, {} labels; {found}", self.calls, self.labels)
    }
}

fn has_every_byte(bytes: &[u8]) -> bool {
    let mut met = [false; 256];
    for &byte in bytes {
        met[usize::from(byte)] = true;
    }
    met == [true; 256]
}

impl Widenings {
    /// In the order of the fields.
    pub const fn of(numbers: [u64; 5]) -> Self {
        let [served, of_every_byte, long, short_of_places, places_left] = numbers;
        Widenings {
            served,
            of_every_byte,
            long,
            short_of_places,
            places_left,
        }
    }

    pub fn named(&self) -> Named<5> {
        [
            ("served", self.served),
            ("of every byte", self.of_every_byte),
            ("of more than 65,536 labels", self.long),
            ("turned down for too few places", self.short_of_places),
            ("turned down for too many", self.places_left),
        ]
    }
}

#[cfg(test)]
mod tests {
    use super::*;
    use reference::calls::OTHER_PLACES;

    #[test]
    fn calls_are_counted_by_their_lists() {
        let mut tally = WideningTally::default();
        let every: Vec<u8> = (0..=255).collect();
        for (narrow, places) in [
            (vec![], 0),
            (every.clone(), 256),
            (every.repeat(257), 65_792),
            (vec![1; 65_536], 65_536),
            (every.clone(), 255),
            (every, 257),
            (vec![], 1),
        ] {
            let number = if narrow.len() == places {
                0
            } else {
                OTHER_PLACES
            };
            tally.count(&WideningCase { narrow, places }, number);
        }
        assert_eq!(tally.found, Widenings::of([4, 2, 1, 1, 2]));
        assert_eq!((tally.calls, tally.labels), (7, 256 + 65_792 + 65_536));
    }
}
