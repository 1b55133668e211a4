//! Numbers whose line is printed.

use super::Case;
use crate::calls::Call;
use cloths::random::Random;

const SEED: u64 = 108;

pub fn cases() -> Vec<Case> {
    let mut all = vec![case("no ground", 0)];
    all.extend(
        (1..=11)
            .chain([20])
            .map(|ground| case(format!("ground {ground}"), ground)),
    );
    for digits in 2..=6 {
        let first = u32::pow(10, digits - 1);
        all.push(case(format!("{digits} digits, the first"), first));
        all.push(case(format!("{digits} digits, the last"), 10 * first - 1));
    }
    let longer = [
        1_000_000,
        1_000_001,
        1_234_567,
        9_999_999,
        10_000_000,
        100_000_200,
        4_294_000_000,
        u32::MAX,
    ];
    all.extend(longer.map(|number| case("more than six digits: the last six", number)));
    let mut random = Random::new(SEED);
    all.extend((0..20).map(|_| case("drawn", random.bits() as u32 % 1_000_000)));
    all
}

fn case(what: impl Into<String>, number: u32) -> Case {
    Case::new(what, Call::PrintGround(number))
}
