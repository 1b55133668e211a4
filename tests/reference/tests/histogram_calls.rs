//! The grounds and the answers of the calls on histograms.

mod common;

use common::CLOSENESSES;
use reference::calls::*;
use reference::test::Verdict;

const NO_VERDICT: Verdict = Verdict {
    cost: 0,
    rejected: false,
};

#[test]
fn bins_are_2_to_256() {
    for (bins, number) in [(0, 6), (1, 6), (2, 0), (256, 0), (257, 6)] {
        let histogram = vec![1; bins];
        assert_eq!(fit(&histogram, true).number, number);
        assert_eq!(verdict(&histogram, false, 0).number, number);
    }
}

#[test]
fn counts_sum_to_65_536_at_most() {
    for (last, number) in [(0, 0), (1, 0), (2, 7), (u32::MAX, 7)] {
        let histogram = [65_535, last];
        assert_eq!(fit(&histogram, true).number, number);
        assert_eq!(verdict(&histogram, true, 20).number, number);
    }
    assert_eq!(fit(&[u32::MAX; 256], true).number, 7);
}

#[test]
fn closeness_is_minus_10_to_20() {
    assert_eq!((LEAST_CLOSENESS, MOST_CLOSENESS), (-10, 20));
    for (closeness, number) in CLOSENESSES {
        assert_eq!(verdict(&[3, 1], true, closeness).number, number);
    }
}

#[test]
fn the_first_ground_counts() {
    let turned_down = |number| VerdictAnswer {
        number,
        verdict: NO_VERDICT,
    };
    for closeness in [-11, 21] {
        assert_eq!(verdict(&[u32::MAX; 257], true, closeness), turned_down(6));
        assert_eq!(verdict(&[u32::MAX; 256], true, closeness), turned_down(7));
        assert_eq!(verdict(&[9, 0, 9, 0], true, closeness), turned_down(8));
    }
}

#[test]
fn a_fit_turned_down_is_zero() {
    assert_eq!(
        fit(&[5], true),
        FitAnswer {
            number: 6,
            sums: [0; 256],
            lengths: [0; 256]
        }
    );
}

#[test]
fn places_past_the_last_bin_are_zero() {
    let answer = fit(&[1, 3, 2], true);
    assert_eq!(answer.sums[..4], [1, 5, 5, 0]);
    assert_eq!(answer.lengths[..4], [1, 2, 2, 0]);
    assert!(answer.sums[3..]
        .iter()
        .chain(&answer.lengths[3..])
        .all(|&figure| figure == 0));
}

type ModesCall = fn(&[u32], i32, &mut [u32]) -> ModesAnswer;

const CALLS: [ModesCall; 2] = [line_modes, ring_modes];

fn modes_turned_down(number: u32) -> ModesAnswer {
    ModesAnswer {
        number,
        separators: 0,
    }
}

#[test]
fn modes_that_are_given() {
    let mut list = [9; 7];
    let two = ModesAnswer {
        number: 0,
        separators: 3,
    };
    assert_eq!(line_modes(&[0, 20, 0, 20, 0], 13, &mut list), two);
    assert_eq!(list, [0, 2, 4, 9, 9, 9, 9]);
    let one = ModesAnswer {
        number: 0,
        separators: 2,
    };
    assert_eq!(line_modes(&[0, 1, 0, 1, 0], 0, &mut list), one);
    assert_eq!(list, [0, 4, 4, 9, 9, 9, 9]);
    assert_eq!(line_modes(&[0, 1, 0, 1, 0], -10, &mut list), two);
    assert_eq!(list, [0, 2, 4, 9, 9, 9, 9]);
}

#[test]
fn modes_are_turned_down_on_four_grounds() {
    for call in CALLS {
        for (bins, number) in [(0, 6), (1, 6), (2, 0), (256, 0), (257, 6)] {
            assert_eq!(call(&vec![1; bins], 0, &mut [0; 300]).number, number);
        }
        for (last, number) in [(1, 0), (2, 7), (u32::MAX, 7)] {
            assert_eq!(call(&[65_535, last], 20, &mut [0; 2]).number, number);
        }
        for (closeness, number) in CLOSENESSES {
            assert_eq!(call(&[3, 1], closeness, &mut [0; 2]).number, number);
        }
        for (places, number) in [(0, 10), (2, 10), (3, 0), (4, 0)] {
            assert_eq!(call(&[3, 1, 2], 0, &mut vec![0; places]).number, number);
        }
    }
}

#[test]
fn modes_turned_down_leave_the_list() {
    for call in CALLS {
        let mut list = [7, 8];
        for e in [-11, 21] {
            assert_eq!(call(&[u32::MAX; 257], e, &mut list), modes_turned_down(6));
            assert_eq!(call(&[u32::MAX; 256], e, &mut list), modes_turned_down(7));
            assert_eq!(call(&[9, 0, 9, 0], e, &mut list), modes_turned_down(8));
        }
        for e in [-10, 0, 20] {
            assert_eq!(call(&[9, 0, 9, 0], e, &mut list), modes_turned_down(10));
        }
        assert_eq!(list, [7, 8]);
    }
}

/// The largest sum of an opened ring: two equal bins become three.
#[test]
fn a_ring_of_two_bins_counts_its_lowest_twice() {
    let mut list = [9; 2];
    let one = ModesAnswer {
        number: 0,
        separators: 1,
    };
    assert_eq!(ring_modes(&[32_768, 32_768], 0, &mut list), one);
    assert_eq!(list, [0, 9]);
}

/// The last two open at bin 3, the first at bin 1, where no mode starts. The places behind the separators stay as lent.
#[test]
fn a_ring_is_listed_from_the_lowest_bin_up() {
    let rings: [(i32, &[u32], &[u32]); 3] = [
        (1, &[94, 78, 144, 78, 143, 78, 78, 118, 78], &[3, 5]),
        (0, &[9, 1, 9, 0, 9, 0], &[1, 3, 5]),
        (0, &[2, 50, 9, 0, 50, 3, 60], &[0, 3, 5]),
    ];
    for (closeness, histogram, separators) in rings {
        let mut list = [99; 10];
        let answer = ring_modes(histogram, closeness, &mut list);
        let count = separators.len();
        assert_eq!((answer.number, answer.separators as usize), (0, count));
        assert_eq!(list[..count], *separators);
        assert_eq!(list[count..], [99; 10][count..]);
    }
}

/// The two calls answer alike; the traits are those of what is served only.
#[test]
fn a_ring_comes_with_its_traits() {
    for (closeness, number, joins) in [(-1, 0, 3), (MOST_CLOSENESS + 1, 8, 0)] {
        let histogram = [4, 0, 4, 0, 9, 0, 4, 0, 0, 0];
        let (mut list, mut same_list) = ([99; 10], [99; 10]);
        let (answer, traits) = ring_modes_and_traits(&histogram, closeness, &mut list);
        assert_eq!((answer.number, traits.joins), (number, joins));
        assert_eq!(ring_modes(&histogram, closeness, &mut same_list), answer);
        assert_eq!(list, same_list);
    }
}
