//! The stored sheet of L5, as it stands in the engine's source, compared with the rounds. The proof says that the two are
//! equal; an engineer who copies the numbers out of that file into a controller relies on this test as well, which reads
//! them from the text.

use reference::logarithm::lg;
use std::fs;
use std::path::Path;

const SIZE: u64 = 1024;
const START: &str = "pub const SHEET: [u32; SHEET_SIZE] = [";
const END: &str = "];";

#[test]
fn every_number_is_what_the_rounds_give() {
    let path = Path::new(env!("CARGO_MANIFEST_DIR")).join("../../crates/logarithm/src/sheet.rt");
    let source = fs::read_to_string(&path);
    let source = source.unwrap_or_else(|wrong| panic!("{}: {wrong}", path.display()));
    assert_eq!(check(&source), Ok(()));
}

/// Place x − 1 is to hold the logarithm of x.
fn check(source: &str) -> Result<(), String> {
    let sheet = numbers(source)?;
    if sheet.len() as u64 != SIZE {
        return Err(format!("{} numbers", sheet.len()));
    }
    for (x, stored) in (1..=SIZE).zip(sheet) {
        if stored != lg(x) {
            return Err(format!("lg {x} is {}, not {stored}", lg(x)));
        }
    }
    Ok(())
}

fn numbers(source: &str) -> Result<Vec<u64>, String> {
    let (_, rest) = source.split_once(START).ok_or("no start")?;
    let (list, _) = rest.split_once(END).ok_or("no end")?;
    let list = list.trim_end();
    let list = list.strip_suffix(',').unwrap_or(list);
    list.split(',').map(number).collect()
}

fn number(text: &str) -> Result<u64, String> {
    let text = text.trim();
    text.parse()
        .map_err(|wrong| format!("\"{text}\" in the list: {wrong}"))
}

/// A check that cannot fail would be none.
mod altered {
    use super::*;

    const PLACES: [usize; 6] = [0, 1, 2, 499, 1022, 1023];

    fn right() -> Vec<u64> {
        (1..=SIZE).map(lg).collect()
    }

    /// A source with these numbers, eight on a line.
    fn source(sheet: &[u64]) -> String {
        let line = |numbers: &[u64]| {
            let numbers: Vec<String> = numbers.iter().map(u64::to_string).collect();
            format!("    {},\n", numbers.join(", "))
        };
        let lines: String = sheet.chunks(8).map(line).collect();
        format!("//! A sheet = [0];\n\n{START}\n{lines}{END}\n\npub const OTHER: [u32; 1] = [7];\n")
    }

    #[test]
    fn what_is_right_is_accepted() {
        assert_eq!(check(&source(&right())), Ok(()));
    }

    #[test]
    fn a_number_that_is_one_more_or_less_is_noticed() {
        for place in PLACES {
            for changed in [right()[place] + 1, right()[place].wrapping_sub(1)] {
                let mut sheet = right();
                sheet[place] = changed;
                assert!(check(&source(&sheet)).is_err(), "place {place}");
            }
        }
    }

    #[test]
    fn a_number_missing_or_left_over_is_noticed() {
        for place in PLACES {
            let mut sheet = right();
            sheet.remove(place);
            assert!(check(&source(&sheet)).is_err(), "without place {place}");
        }
        let longer = [right(), vec![lg(SIZE + 1)]].concat();
        assert!(check(&source(&longer)).is_err());
        assert!(check(&source(&[])).is_err());
    }

    #[test]
    fn shifted_numbers_are_noticed() {
        let later: Vec<u64> = (2..=SIZE + 1).map(lg).collect();
        assert!(check(&source(&later)).is_err());
        let earlier = [vec![0], (1..SIZE).map(lg).collect()].concat();
        assert!(check(&source(&earlier)).is_err());
    }

    #[test]
    fn what_is_no_list_of_numbers_is_noticed() {
        let whole = source(&right());
        for (part, instead) in [(START, "= ["), (END, ")"), ("0, ", "0, , "), ("0, ", "0 ")] {
            let damaged = whole.replace(part, instead);
            assert!(check(&damaged).is_err(), "{part} became {instead}");
        }
    }
}
