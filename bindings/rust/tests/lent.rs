//! Lists that are lent: a call that is turned down leaves them as they were; one that is served writes nothing but the
//! labels or the first places. And the calls that are lent no list give the same answers. A log that is replayed may hold
//! anything, and so may labels that are widened.

mod common;

use common::{cube, examples, file, of_entries, pixels, ENTRIES};
use kistrovu::raw::{LEAST_CLOSENESS, MOST_BINS, MOST_CLOSENESS, MOST_ENTRIES, MOST_PIXELS};
use kistrovu::*;
use std::fmt::Debug;

const PIXELS: u32 = MOST_PIXELS as u32;
const HUMPS: [u32; 7] = [0, 20, 0, 0, 20, 0, 30];
/// Each small hump is joined to the large one beside it: the first by the rise, and then the last by the fall.
const JOINED: [u32; 9] = [0, 3, 2, 30, 0, 30, 2, 3, 0];

type ModesInto = fn(&[u32], i32, &mut [u32]) -> Result<usize, Ground>;
const MODES: [ModesInto; 2] = [line_modes_into, ring_modes_into];

/// Numbers that are not bins, all different, so that every place that is written shows.
fn list(places: usize) -> Vec<u32> {
    (0..places as u32).map(|place| 1_000_000 + place).collect()
}

/// Records that no log has, all different, likewise.
fn records(places: usize) -> Vec<JoinRecord> {
    let record = |place| JoinRecord::from([-1, -2, -3, 1_000_000 + place]);
    (0..places as i64).map(record).collect()
}

/// Tries the grounds of a call that is lent a list of a place for each bin: it comes back as lent.
fn leaves_the_list<T: Debug + PartialEq>(
    call: impl Fn(&[u32], i32, &mut [T]) -> Result<usize, Ground>,
    list: fn(usize) -> Vec<T>,
) {
    let ground = |histogram: &[u32], closeness, places| {
        let mut lent = list(places);
        let ground = call(histogram, closeness, &mut lent).unwrap_err();
        assert_eq!(lent, list(places));
        ground
    };
    assert_eq!(ground(&[], 0, 0), Ground::Bins);
    assert_eq!(ground(&[5], 0, 5), Ground::Bins);
    assert_eq!(ground(&[0; MOST_BINS + 1], 21, 300), Ground::Bins);
    assert_eq!(ground(&[PIXELS, 1], 21, 1), Ground::Sum);
    assert_eq!(ground(&[u32::MAX; 256], 0, 256), Ground::Sum);
    assert_eq!(ground(&HUMPS, MOST_CLOSENESS + 1, 6), Ground::Closeness);
    assert_eq!(ground(&HUMPS, LEAST_CLOSENESS - 1, 6), Ground::Closeness);
    assert_eq!(ground(&HUMPS, i32::MAX, 7), Ground::Closeness);
    assert_eq!(ground(&HUMPS, i32::MIN, 7), Ground::Closeness);
    assert_eq!(ground(&HUMPS, 0, 6), Ground::Separators);
    assert_eq!(ground(&HUMPS, 0, 0), Ground::Separators);
}

#[test]
fn calls_that_are_turned_down_leave_the_list() {
    for call in MODES {
        leaves_the_list(call, list);
    }
    leaves_the_list(join_log_into, records);
    // The log is wrong as well, which is the last ground to be tested.
    leaves_the_list(|h, e, lent| replay_into(h, e, &records(3), lent), list);
}

#[test]
fn served_modes_write_the_first_places_alone() {
    for (call, expected) in MODES.into_iter().zip([vec![0, 2, 5, 6], vec![0, 2, 5]]) {
        for places in [7, 8, 300] {
            let mut lent = list(places);
            let count = call(&HUMPS, 0, &mut lent).unwrap();
            assert_eq!(lent[..count], expected);
            assert_eq!(lent[count..], list(places)[count..]);
        }
    }
}

#[test]
fn a_served_log_has_its_records_in_the_first_places_alone() {
    for places in [9, 10, 300] {
        let mut lent = records(places);
        assert_eq!(join_log_into(&JOINED, 0, &mut lent), Ok(2));
        let cost = -217_359_996;
        let joins = [[0, 2, 1, cost], [1, 2, 0, cost]].map(JoinRecord::from);
        assert_eq!(lent[..2], joins);
        assert_eq!(lent[2..], records(places)[2..]);
    }
    let mut lent = records(7);
    assert_eq!(join_log_into(&HUMPS, 0, &mut lent), Ok(0));
    assert_eq!(lent, records(7));
}

#[test]
fn a_served_replay_writes_the_first_places_alone() {
    let log = join_log(&JOINED, 0).unwrap();
    for places in [9, 10, 300] {
        let mut lent = list(places);
        assert_eq!(replay_into(&JOINED, 0, &log, &mut lent), Ok(3));
        assert_eq!(lent[..3], [0, 4, 8]);
        assert_eq!(lent[3..], list(places)[3..]);
    }
    // Nothing is joined, and the log is empty.
    assert_eq!(replay(&HUMPS, 0, &[]), Ok(vec![0, 2, 5, 6]));
}

/// The log with one of its numbers altered: by one, and to some that no log has.
fn altered(log: &[JoinRecord]) -> Vec<Vec<JoinRecord>> {
    let mut all = Vec::new();
    for place in 0..log.len() {
        for number in 0..4 {
            let numbers = <[i64; 4]>::from(log[place]);
            let right = numbers[number];
            for other in [right - 1, right + 1, 2 + right, -256, i64::MIN, i64::MAX] {
                let mut wrong = numbers;
                wrong[number] = other;
                let mut log = log.to_vec();
                log[place] = wrong.into();
                all.push(log);
            }
        }
    }
    all
}

#[test]
fn any_other_log_is_turned_down_and_leaves_the_list() {
    let right = join_log(&JOINED, 0).unwrap();
    let mut wrong = altered(&right);
    wrong.extend([vec![], right[..1].to_vec(), right[1..].to_vec()]);
    wrong.extend([vec![right[1], right[0]], vec![right[0], right[0]]]);
    wrong.extend([1, 2, 300].map(|more| [right.clone(), records(more)].concat()));
    wrong.extend([[right.clone(), vec![right[1]]].concat(), records(256)]);
    for log in wrong {
        let mut lent = list(9);
        assert_eq!(replay_into(&JOINED, 0, &log, &mut lent), Err(Ground::Log));
        assert_eq!(lent, list(9), "{log:?}");
    }
    // The log of the line at another closeness, and that of another line.
    assert_eq!(replay(&JOINED, 1, &right), Err(Ground::Log));
    assert_eq!(replay(&HUMPS, 0, &right), Err(Ground::Log));
}

/// It opens at bin 3, and bin 0 is listed first nevertheless.
#[test]
fn a_ring_is_listed_from_the_lowest_bin_up() {
    let humps = [2, 50, 9, 0, 50, 3, 60];
    let mut lent = list(7);
    assert_eq!(ring_modes_into(&humps, 0, &mut lent), Ok(3));
    assert_eq!(lent[..3], [0, 3, 5]);
    assert_eq!(ring_modes(&humps, 0), Ok(vec![0, 3, 5]));
}

#[test]
fn limits_are_served() {
    let mut sum = [0; MOST_BINS];
    sum[7] = PIXELS;
    assert!(fit(&sum, Direction::Increasing).is_ok());
    for closeness in [LEAST_CLOSENESS, MOST_CLOSENESS] {
        for call in MODES {
            assert!(call(&sum, closeness, &mut [0; MOST_BINS]).is_ok());
        }
        let log = join_log(&sum, closeness).unwrap();
        assert_eq!(replay(&sum, closeness, &log), line_modes(&sum, closeness));
        assert!(line_modes(&sum, closeness).is_ok());
        assert!(ring_modes(&sum, closeness).is_ok());
        assert!(verdict(&sum, Direction::Decreasing, closeness).is_ok());
        assert!(card(&[7; 3 * MOST_PIXELS], closeness).is_ok());
    }
}

/// Labels that no card has, unlike their neighbours in both bytes.
fn unused_labels(places: usize) -> Vec<u16> {
    let label = |place| u16::MAX - 257 * (place % 241) as u16;
    (0..places).map(label).collect()
}

/// The ground; checks that the labels came back as lent.
fn card_turned_down(pixels: &[u8], closeness: i32, places: usize) -> Ground {
    let mut labels = unused_labels(places);
    let ground = card_into(pixels, closeness, &mut labels).unwrap_err();
    assert_eq!(labels, unused_labels(places));
    ground
}

#[test]
fn a_card_that_is_turned_down_leaves_the_labels() {
    assert_eq!(card_turned_down(&[], 21, 0), Ground::Bytes);
    assert_eq!(card_turned_down(&[7; 8], 21, 2), Ground::Bytes);
    let many = MOST_PIXELS + 1;
    assert_eq!(card_turned_down(&cube(many), 21, many), Ground::Pixels);
    for closeness in [21, -11, i32::MIN] {
        assert_eq!(card_turned_down(&cube(2), closeness, 3), Ground::Closeness);
    }
    for places in [0, 1, 3, 6] {
        assert_eq!(card_turned_down(&cube(2), 0, places), Ground::Labels);
    }
    for pixels in [MOST_PIXELS / 4, MOST_PIXELS] {
        assert_eq!(card_turned_down(&cube(pixels), 0, pixels), Ground::Entries);
    }
}

#[test]
fn the_limit_on_entries_is_one_thousand() {
    let [served, refused] =
        [MOST_ENTRIES, MOST_ENTRIES + 1].map(|entries| of_entries(entries)[0].clone());
    let served = card(&pixels(&served), 0).unwrap();
    assert_eq!(served.entries.len(), 1_000);
    assert_eq!(served.labels.iter().max(), Some(&999));
    let refused = pixels(&refused);
    assert_eq!(card(&refused, 0), Err(Ground::Entries));
    assert_eq!(
        card_turned_down(&refused, 0, refused.len() / 3),
        Ground::Entries
    );
}

/// Labels of one byte, every byte among them if there are enough.
fn narrow_labels(count: usize) -> Vec<u8> {
    (0..count)
        .map(|place| (place + place / 256) as u8)
        .collect()
}

/// Longer lists than those of an image as well.
const LENGTHS: [usize; 9] = [0, 1, 2, 255, 256, 257, 65_536, 65_537, 100_000];

#[test]
fn widened_labels_have_the_same_numbers() {
    for count in LENGTHS {
        let narrow = narrow_labels(count);
        let expected: Vec<u16> = narrow.iter().map(|&label| label.into()).collect();
        assert_eq!(widen_labels(&narrow).unwrap(), expected);
        let mut lent = unused_labels(count + 2);
        assert_eq!(widen_labels_into(&narrow, &mut lent[1..=count]), Ok(()));
        assert_eq!(lent[1..=count], expected);
        let around = unused_labels(count + 2);
        assert_eq!((lent[0], lent[count + 1]), (around[0], around[count + 1]));
    }
}

#[test]
fn a_widening_that_is_turned_down_leaves_the_labels() {
    for count in LENGTHS {
        let others = [
            0,
            1,
            count / 2,
            count.saturating_sub(1),
            count + 1,
            2 * count,
        ];
        for places in others.into_iter().filter(|&places| places != count) {
            let mut lent = unused_labels(places);
            let turned_down = widen_labels_into(&narrow_labels(count), &mut lent);
            assert_eq!(turned_down, Err(Ground::Labels));
            assert_eq!(lent, unused_labels(places));
        }
    }
}

/// Labels of up to 256 entries fit one byte each: stored so and widened, they are the card's.
#[test]
fn labels_of_few_entries_are_those_of_before() {
    let mut tried = 0;
    for entries in ENTRIES {
        let labels = card(&pixels(&of_entries(entries)[0]), 0).unwrap().labels;
        let narrow: Result<Vec<u8>, _> = labels.iter().map(|&label| label.try_into()).collect();
        assert_eq!(narrow.is_ok(), entries <= 256);
        if let Ok(narrow) = narrow {
            assert_eq!(widen_labels(&narrow), Ok(labels));
            tried += 1;
        }
    }
    assert!(tried > 0);
}

#[test]
fn with_a_heap_and_without_the_answers_are_the_same() {
    for name in examples() {
        let pixels = pixels(&file(&format!("examples/{name}.swatch")));
        for closeness in [LEAST_CLOSENESS, 0, 7, MOST_CLOSENESS] {
            let mut labels = vec![99; pixels.len() / 3];
            let entries = card_into(&pixels, closeness, &mut labels).unwrap();
            let card = card(&pixels, closeness).unwrap();
            assert_eq!((&card.entries[..], card.labels), (&entries[..], labels));
        }
    }
    let mut lent = list(7);
    let count = line_modes_into(&HUMPS, 0, &mut lent).unwrap();
    assert_eq!(line_modes(&HUMPS, 0), Ok(lent[..count].to_vec()));
    let mut lent = list(7);
    let count = ring_modes_into(&HUMPS, 0, &mut lent).unwrap();
    assert_eq!(ring_modes(&HUMPS, 0), Ok(lent[..count].to_vec()));
    let mut log = records(9);
    let joins = join_log_into(&JOINED, 0, &mut log).unwrap();
    assert_eq!(join_log(&JOINED, 0).as_deref(), Ok(&log[..joins]));
    let mut lent = list(9);
    let count = replay_into(&JOINED, 0, &log[..joins], &mut lent).unwrap();
    assert_eq!(
        replay(&JOINED, 0, &log[..joins]),
        Ok(lent[..count].to_vec())
    );
    assert_eq!(line_modes(&JOINED, 0), Ok(lent[..count].to_vec()));
}
