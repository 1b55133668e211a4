//! The two card calls and the line of a ground, engine and reference side by side. Swatches are long, so only the first
//! entry, label or byte that differs is shown.

use crate::card_groups::CardCase;
use crate::comparison::{same, Difference, Tally};
use crate::labels::{inside, lent, AROUND};
use engine::{Card, IntoRaw, Printed};
use reference::calls::{Carded, MOST_ENTRIES, MOST_NARROW_ENTRIES, TOO_MANY_ENTRIES};
use reference::cards::COLOUR;

/// What a card call hands back and what it leaves behind, with the places around the labels.
struct Outcome {
    card: Card,
    labels: Vec<u16>,
    bytes: Vec<u8>,
}

pub fn card(case: &CardCase, tally: &mut Tally) -> Result<(), Difference> {
    let CardCase {
        bytes,
        closeness,
        places,
    } = case;
    let found = by_the_engine(case);
    let carded = Carded::of(bytes, *closeness, *places);
    let expected = by_the_reference(case, &carded);
    tally.cards += 1;
    tally.count(expected.card.number);
    let entries = expected.card.len as usize;
    tally.entries.count(expected.card.number, entries);
    tally.several += u64::from(entries > 1);
    tally.most = tally.most.max(expected.card.len);
    let hues = hue_modes(&expected.card);
    tally.round.count(carded.hue_traits(), hues);
    let input = || {
        format!(
            "card {} of the group, closeness {closeness}, {places} labels, {} bytes {}",
            tally.cards,
            bytes.len(),
            shown_pixels(bytes)
        )
    };
    same_outcome(input, &expected, &found)?;
    same_under_the_narrow_limit(input, case, &carded, &found)
}

fn by_the_engine(case: &CardCase) -> Outcome {
    let (mut bytes, mut labels) = (case.bytes.clone(), lent(case.places));
    let card = engine::card(&mut bytes, case.closeness, inside(&mut labels));
    Outcome {
        card,
        labels,
        bytes,
    }
}

fn by_the_reference(case: &CardCase, carded: &Carded) -> Outcome {
    let mut labels = lent(case.places);
    Outcome {
        card: carded.answer(inside(&mut labels)).into_raw(),
        labels,
        bytes: case.bytes.clone(),
    }
}

/// C10: what the engine gives is what there would be if 255 entries were the most, with the labels of one byte of that card
/// widened by the engine. Only where that is ground 11 is it another card or the same ground.
fn same_under_the_narrow_limit(
    input: impl Fn() -> String,
    case: &CardCase,
    carded: &Carded,
    found: &Outcome,
) -> Result<(), Difference> {
    let mut narrow = vec![0; case.places];
    let card = carded.narrow_answer(&mut narrow).into_raw();
    if card.number == TOO_MANY_ENTRIES {
        let more = found.card.len as usize > MOST_NARROW_ENTRIES;
        let other = more || found.card.number == TOO_MANY_ENTRIES;
        return same(
            || format!("more than 255 entries, {}", input()),
            true,
            other,
        );
    }
    let mut labels = lent(case.places);
    if card.number == 0 {
        let number = engine::widen_labels(&mut narrow, inside(&mut labels));
        same(|| format!("labels widened, {}", input()), 0, number)?;
    }
    let before = Outcome {
        card,
        labels,
        bytes: case.bytes.clone(),
    };
    let input = || format!("with 255 entries as the most, {}", input());
    same_outcome(input, &before, found)
}

fn same_outcome(
    input: impl Fn() -> String,
    expected: &Outcome,
    found: &Outcome,
) -> Result<(), Difference> {
    let entry =
        (0..MOST_ENTRIES).find(|&place| expected.card.entries[place] != found.card.entries[place]);
    let label = first_difference(&expected.labels, &found.labels);
    let byte = first_difference(&expected.bytes, &found.bytes);
    let head = |outcome: &Outcome| (outcome.card.number, outcome.card.len);
    let differ = [entry, label, byte].iter().any(Option::is_some);
    if head(expected) == head(found) && !differ {
        return Ok(());
    }
    let told = |outcome: &Outcome| told_outcome(outcome, entry, label, byte);
    Err(Difference {
        input: input(),
        reference: told(expected),
        engine: told(found),
    })
}

fn first_difference<T: PartialEq>(expected: &[T], found: &[T]) -> Option<usize> {
    (0..found.len()).find(|&place| expected[place] != found[place])
}

/// With what it has in the places that are given.
fn told_outcome(
    outcome: &Outcome,
    entry: Option<usize>,
    label: Option<usize>,
    byte: Option<usize>,
) -> String {
    let card = &outcome.card;
    let mut told = format!("number {}, {} entries", card.number, card.len);
    if let Some(place) = entry {
        told += &format!("; entry {place}: {:?}", card.entries[place]);
    }
    if let Some(place) = label {
        let pixel = place as i64 - AROUND as i64;
        told += &format!("; label of pixel {pixel}: {}", outcome.labels[place]);
    }
    if let Some(place) = byte {
        told += &format!("; pixel byte {place}: {}", outcome.bytes[place]);
    }
    told
}

/// Each has entries, and the entries are in the order of the hue modes, which number from 0.
fn hue_modes(card: &Card) -> usize {
    let entries = &card.entries[..card.len as usize];
    let last = entries
        .last()
        .filter(|entry| usize::from(entry.kind) == COLOUR);
    last.map_or(0, |entry| usize::from(entry.hue) + 1)
}

pub fn text(text: &[u8], tally: &mut Tally) -> Result<(), Difference> {
    let mut lent = text.to_vec();
    let answer = engine::print_card(&mut lent);
    let expected = reference::calls::print_card(text).into_raw();
    tally.texts += 1;
    tally.count(expected.number);
    tally
        .entries
        .count(expected.number, entries_printed(&expected));
    if let Some(count) = tally.grounds.get_mut(expected.number as usize) {
        *count += 1;
    }
    if (expected, text) == (answer, lent.as_slice()) {
        return Ok(());
    }
    let told = |printed: &Printed, text: &[u8]| format!("{}, text {}", told(printed), shown(text));
    Err(Difference {
        input: format!("text {} of the group, {} bytes", tally.texts, text.len()),
        reference: told(&expected, text),
        engine: told(&answer, &lent),
    })
}

/// A printed card has a line for each entry behind its first line.
fn entries_printed(printed: &Printed) -> usize {
    let bytes = &printed.bytes[..printed.len as usize];
    let lines = bytes.iter().filter(|&&byte| byte == b'\n').count();
    lines.saturating_sub(1)
}

pub fn ground(number: u32, tally: &mut Tally) -> Result<(), Difference> {
    let answer = engine::print_ground(number);
    let expected = reference::calls::print_ground(number).into_raw();
    tally.lines += 1;
    if expected == answer {
        return Ok(());
    }
    Err(Difference {
        input: format!("the line of ground {number}"),
        reference: told(&expected),
        engine: told(&answer),
    })
}

fn told(printed: &Printed) -> String {
    let end = printed.bytes.len().min(printed.len as usize);
    let past = printed.bytes[end..].iter().all(|&byte| byte == 0);
    format!(
        "number {}, {} bytes {}, {}zero past them",
        printed.number,
        printed.len,
        shown(&printed.bytes[..end]),
        if past { "" } else { "not " }
    )
}

/// The start of a text.
pub fn shown(text: &[u8]) -> String {
    const MOST: usize = 400;
    let start = text[..text.len().min(MOST)].escape_ascii();
    let rest = if text.len() > MOST { " .." } else { "" };
    format!("\"{start}\"{rest}")
}

/// The first pixels.
fn shown_pixels(bytes: &[u8]) -> String {
    const MOST: usize = 40;
    let first: Vec<&[u8]> = bytes.chunks(3).take(MOST).collect();
    let rest = if bytes.len() > 3 * MOST { " .." } else { "" };
    format!("{first:?}{rest}")
}

#[cfg(test)]
mod tests {
    use super::*;
    use cloths::full_cards;

    /// A card of this many entries.
    fn case(entries: usize) -> CardCase {
        let pixels = full_cards::pixels(entries, 10);
        CardCase {
            bytes: pixels.concat(),
            closeness: 0,
            places: pixels.len(),
        }
    }

    fn altered(case: &CardCase, alter: fn(&mut Outcome)) -> Outcome {
        let mut found = by_the_engine(case);
        alter(&mut found);
        found
    }

    const ALTERED: [fn(&mut Outcome); 7] = [
        |found| found.card.number = 9,
        |found| found.card.len += 1,
        |found| found.card.entries[2].count += 1,
        |found| found.card.entries[MOST_ENTRIES - 1].red = 1,
        |found| found.labels[AROUND] += 256,
        |found| found.labels[0] = 0,
        |found| found.bytes[0] += 1,
    ];

    #[test]
    fn whatever_differs_is_noticed() {
        let case = case(20);
        let carded = Carded::of(&case.bytes, 0, case.places);
        let expected = by_the_reference(&case, &carded);
        let told = || String::new();
        assert!(same_outcome(told, &expected, &by_the_engine(&case)).is_ok());
        for alter in ALTERED {
            let found = altered(&case, alter);
            assert!(same_outcome(told, &expected, &found).is_err());
            assert!(same_under_the_narrow_limit(told, &case, &carded, &found).is_err());
        }
    }

    #[test]
    fn more_than_255_entries_are_another_card_or_ground_11() {
        let case = case(256);
        let carded = Carded::of(&case.bytes, 0, case.places);
        let check = |found: &Outcome| {
            same_under_the_narrow_limit(String::new, &case, &carded, found).is_ok()
        };
        assert!(check(&by_the_engine(&case)));
        assert!(!check(&altered(&case, |found| found.card.len = 255)));
    }
}
