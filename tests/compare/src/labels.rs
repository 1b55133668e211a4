//! Label lists as they are lent.

/// Places in front of and behind the labels that were lent: they are not the engine's to write.
pub const AROUND: usize = 5;

/// Each place another number than the ones next to it, so that a place that is written shows, or nearly always. None is a
/// label of a card, and both bytes of each are other ones than 0, so that a label of which one byte is written shows too.
pub fn unwritten(places: usize) -> Vec<u16> {
    const BOTH_BYTES: u16 = 0x0101;
    let number = |place: usize| u16::MAX - BOTH_BYTES * (place % 241) as u16;
    (0..places).map(number).collect()
}

/// The labels that are lent, with places around them.
pub fn lent(places: usize) -> Vec<u16> {
    unwritten(places + 2 * AROUND)
}

/// Those of the places that the engine may write.
pub fn inside(list: &mut [u16]) -> &mut [u16] {
    let end = list.len() - AROUND;
    &mut list[AROUND..end]
}

#[cfg(test)]
mod tests {
    use super::*;
    use reference::calls::MOST_ENTRIES;

    #[test]
    fn no_lent_number_is_a_label_or_has_a_byte_of_0() {
        for label in unwritten(1_000) {
            assert!(usize::from(label) >= MOST_ENTRIES, "{label}");
            assert!(label.to_be_bytes().iter().all(|&byte| byte > 0), "{label}");
        }
    }

    #[test]
    fn what_is_lent_stands_between_other_places() {
        let mut list = lent(3);
        inside(&mut list).fill(0);
        let written: Vec<usize> = (0..list.len()).filter(|&place| list[place] == 0).collect();
        assert_eq!(written, [5, 6, 7]);
        assert_eq!(list.len(), 13);
    }
}
