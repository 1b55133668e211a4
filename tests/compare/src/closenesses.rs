//! The closenesses that cases are drawn with.

use cloths::random::Random;
use reference::calls::{LEAST_CLOSENESS, MOST_CLOSENESS};

/// On either side of both ends, and far from them.
pub const AT_THE_ENDS: [i32; 10] = [
    i32::MIN,
    -(1 << 16),
    LEAST_CLOSENESS - 1,
    LEAST_CLOSENESS,
    -1,
    0,
    MOST_CLOSENESS,
    MOST_CLOSENESS + 1,
    1 << 16,
    i32::MAX,
];

/// Every closeness that is served, and two more at either end.
pub fn every() -> impl Iterator<Item = i32> + Clone {
    LEAST_CLOSENESS - 2..=MOST_CLOSENESS + 2
}

pub fn served(random: &mut Random) -> i32 {
    random.signed_within(LEAST_CLOSENESS, MOST_CLOSENESS)
}

/// Now and then one that is turned down.
pub fn any(random: &mut Random) -> i32 {
    random.signed_within(LEAST_CLOSENESS - 2, MOST_CLOSENESS + 2)
}

/// Low ones, which leave more modes, more often.
pub fn mostly_low(random: &mut Random) -> i32 {
    if random.coin() {
        random.signed_within(LEAST_CLOSENESS, 3)
    } else {
        any(random)
    }
}

/// The one at this place of a list that takes each in turn.
pub fn in_turn(place: usize) -> i32 {
    let count = MOST_CLOSENESS.abs_diff(LEAST_CLOSENESS) as usize + 1;
    LEAST_CLOSENESS + (place % count) as i32
}
