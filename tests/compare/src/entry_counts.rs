//! How many cards had how many entries, and how many there have to be: a group made for the limit of a card compares
//! nothing of it once its cards have fewer entries, and one without labels above 255 does not show if labels are kept in
//! one byte.

use crate::least::Named;
use reference::calls::{MOST_ENTRIES, MOST_NARROW_ENTRIES, TOO_MANY_ENTRIES};

/// The most entries whose labels have nine bits. Labels of a full card have ten.
const NINE_BITS: usize = 1 << 9;

/// Cards by their entries: how many were found, or how many there have to be.
#[derive(Clone, Copy, Debug, Default, PartialEq, Eq)]
pub struct EntryCounts {
    /// Served, with so few that labels of one byte would do.
    pub narrow: u64,
    /// Served, with more than that.
    pub wide: u64,
    /// Served, with labels of ten bits.
    pub ten_bits: u64,
    /// Served, with exactly as many as a card may hold.
    pub full: u64,
    /// Turned down with 11.
    pub too_many: u64,
}

impl EntryCounts {
    /// In the order of the fields.
    pub const fn of(numbers: [u64; 5]) -> Self {
        let [narrow, wide, ten_bits, full, too_many] = numbers;
        EntryCounts {
            narrow,
            wide,
            ten_bits,
            full,
            too_many,
        }
    }

    /// A card, or what is turned down, by the number of the call and that of the entries.
    pub fn count(&mut self, number: u32, entries: usize) {
        let served = |holds: bool| u64::from(number == 0 && holds);
        self.narrow += served(entries <= MOST_NARROW_ENTRIES);
        self.wide += served(entries > MOST_NARROW_ENTRIES);
        self.ten_bits += served(entries > NINE_BITS);
        self.full += served(entries == MOST_ENTRIES);
        self.too_many += u64::from(number == TOO_MANY_ENTRIES);
    }

    pub fn named(&self) -> Named<5> {
        [
            ("of up to 255 entries", self.narrow),
            ("of more", self.wide),
            ("of more than 512", self.ten_bits),
            ("of 1,000", self.full),
            ("turned down with 11", self.too_many),
        ]
    }
}

#[cfg(test)]
mod tests {
    use super::*;

    #[test]
    fn cards_are_counted_by_their_entries() {
        let mut found = EntryCounts::default();
        for entries in [1, 255, 256, 512, 513, 999, 1_000, 1_000] {
            found.count(0, entries);
        }
        found.count(11, 0);
        found.count(9, 0);
        assert_eq!(found, EntryCounts::of([2, 6, 4, 2, 1]));
    }
}
