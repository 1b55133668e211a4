//! The grounds and the answers of the calls for the log of a line's joins and for its replay.

mod common;

use common::CLOSENESSES;
use reference::calls::*;

/// Two segments, joined by the fall.
const LINE: [u32; 5] = [0, 1, 0, 1, 0];
const LOG: [i64; 4] = [0, 2, 0, -167_225_428];
/// Numbers that no log has, each another one.
const FILLED: i64 = 1 << 40;

fn filled(numbers: usize) -> Vec<i64> {
    (FILLED..).take(numbers).collect()
}

fn log_turned_down(number: u32) -> LogAnswer {
    LogAnswer { number, joins: 0 }
}

fn replay_turned_down(number: u32) -> ModesAnswer {
    ModesAnswer {
        number,
        separators: 0,
    }
}

#[test]
fn a_log_is_written_to_the_first_places_and_nowhere_else() {
    for numbers in [20, 21, 22, 23, 24, 1_000] {
        let mut log = filled(numbers);
        let one = LogAnswer {
            number: 0,
            joins: 1,
        };
        assert_eq!(join_log(&LINE, 0, &mut log), one);
        assert_eq!(log[..4], LOG);
        assert_eq!(log[4..], filled(numbers)[4..]);
    }
}

#[test]
fn a_line_without_joins_leaves_the_log_as_it_was() {
    for (histogram, closeness) in [(&LINE[..], -10), (&[7; 5], 0), (&[0, 20, 0, 20, 0], 13)] {
        let mut log = filled(22);
        let none = LogAnswer {
            number: 0,
            joins: 0,
        };
        assert_eq!(join_log(histogram, closeness, &mut log), none);
        assert_eq!(log, filled(22));
    }
}

/// With four numbers to a place, of which what is left over is none.
#[test]
fn a_log_has_as_many_places_as_bins() {
    for bins in [2, 3, 5, 60, 256] {
        let histogram = vec![1; bins];
        let number = |numbers| join_log(&histogram, 0, &mut vec![0; numbers]).number;
        assert_eq!(number(0), 10);
        assert_eq!(number(bins), 10);
        for short in 1..=4 {
            assert_eq!(number(4 * bins - short), 10);
        }
        for long in 0..=4 {
            assert_eq!(number(4 * bins + long), 0);
        }
    }
}

#[test]
fn both_calls_are_turned_down_on_the_grounds_of_a_line() {
    let numbers = |histogram: &[u32], closeness| {
        let (mut log, mut list) = ([0; 1_100], [0; 300]);
        let logged = join_log(histogram, closeness, &mut log);
        let own = &log[..4 * logged.joins as usize];
        let replayed = replay(histogram, closeness, own, &mut list);
        [logged.number, replayed.number]
    };
    for (bins, number) in [(0, 6), (1, 6), (2, 0), (256, 0), (257, 6)] {
        assert_eq!(numbers(&vec![1; bins], 0), [number; 2]);
    }
    for (last, number) in [(1, 0), (2, 7), (u32::MAX, 7)] {
        assert_eq!(numbers(&[65_535, last], 20), [number; 2]);
    }
    for (closeness, number) in CLOSENESSES {
        assert_eq!(numbers(&LINE, closeness), [number; 2]);
    }
}

#[test]
fn the_first_ground_of_a_log_counts() {
    let mut log = filled(7);
    for closeness in [-11, 21] {
        let mut call = |histogram: &[u32]| join_log(histogram, closeness, &mut log);
        assert_eq!(call(&[u32::MAX; 257]), log_turned_down(6));
        assert_eq!(call(&[u32::MAX; 256]), log_turned_down(7));
        assert_eq!(call(&LINE), log_turned_down(8));
    }
    assert_eq!(join_log(&LINE, 0, &mut log), log_turned_down(10));
    assert_eq!(log, filled(7));
}

/// The list has to have a place for each bin, the log none more than its records need.
#[test]
fn a_replay_writes_the_separators_and_nothing_else() {
    for places in [5, 6, 300] {
        let mut list = vec![99; places];
        let one = ModesAnswer {
            number: 0,
            separators: 2,
        };
        assert_eq!(replay(&LINE, 0, &LOG, &mut list), one);
        assert_eq!(list[..2], [0, 4]);
        assert_eq!(list[2..], vec![99; places][2..]);
    }
    let mut list = [99; 5];
    let two = ModesAnswer {
        number: 0,
        separators: 3,
    };
    assert_eq!(replay(&LINE, -10, &[], &mut list), two);
    assert_eq!(list, [0, 2, 4, 99, 99]);
}

/// Also for a log that is right: its ground is asked for after all others, and what is asked for first decides.
#[test]
fn the_first_ground_of_a_replay_counts() {
    let mut list = [7, 8, 9, 10];
    for log in [&LOG[..], &[], &LOG[..3], &[i64::MIN, i64::MAX, 2, 0]] {
        for closeness in [-11, 21] {
            let mut call = |histogram: &[u32]| replay(histogram, closeness, log, &mut list);
            assert_eq!(call(&[u32::MAX; 257]), replay_turned_down(6));
            assert_eq!(call(&[u32::MAX; 256]), replay_turned_down(7));
            assert_eq!(call(&LINE), replay_turned_down(8));
        }
        assert_eq!(replay(&LINE, 0, log, &mut list), replay_turned_down(10));
    }
    assert_eq!(list, [7, 8, 9, 10]);
    let mut list = [7, 8, 9, 10, 11];
    for log in [&[][..], &LOG[..3], &[0; 4], &[i64::MIN, i64::MAX, 2, 0]] {
        assert_eq!(replay(&LINE, 0, log, &mut list), replay_turned_down(20));
    }
    assert_eq!(list, [7, 8, 9, 10, 11]);
}

/// What is found once for several calls answers as each of them does, also where every call is turned down.
#[test]
fn calls_on_one_line_answer_as_each_call_does() {
    let histograms: [(&[u32], i32); 4] = [(&LINE, 0), (&LINE, -11), (&[5], 0), (&[65_536, 1], 0)];
    for (histogram, closeness) in histograms {
        let joins = Joins::of(histogram, closeness);
        for numbers in [0, 19, 20, 21] {
            let (mut log, mut same_log) = (filled(numbers), filled(numbers));
            let answer = join_log(histogram, closeness, &mut log);
            assert_eq!(joins.log(&mut same_log), answer);
            assert_eq!(log, same_log);
        }
        for log in [&LOG[..], &[], &LOG[1..]] {
            for places in [0, 4, 5, 6] {
                let (mut list, mut same_list) = (vec![9; places], vec![9; places]);
                let answer = replay(histogram, closeness, log, &mut list);
                assert_eq!(joins.replay(log, &mut same_list), answer);
                assert_eq!(list, same_list);
            }
        }
    }
}
