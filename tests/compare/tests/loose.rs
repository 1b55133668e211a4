//! What README.md says of loose settings on a noisy cloth.

use cloths::random::Random;
use cloths::yarns::{woven, yarns};

const SEED: u64 = 1;
const YARNS: usize = 5;
const SIDE: usize = 128;
const GROUND_11: u32 = 11;

/// How many entries the card has, or the ground on which it is turned down.
fn entries(noise: u32, closeness: i32) -> Result<u32, u32> {
    let mut random = Random::new(SEED);
    let yarns = yarns(&mut random, YARNS);
    let mut bytes = woven(&mut random, SIDE, SIDE, &yarns, noise).bytes();
    let card = engine::card(&mut bytes, closeness, &mut [0; SIDE * SIDE]);
    match card.number {
        0 => Ok(card.len),
        ground => Err(ground),
    }
}

#[test]
fn noise_makes_entries_at_the_least_closeness() {
    for (noise, at_0, at_the_least) in [
        (2, Ok(5), Ok(5)),
        (12, Ok(8), Ok(18)),
        (48, Ok(5), Ok(322)),
        (128, Ok(6), Err(GROUND_11)),
    ] {
        assert_eq!(entries(noise, 0), at_0, "noise {noise}");
        assert_eq!(entries(noise, -10), at_the_least, "noise {noise}");
    }
}

#[test]
fn the_readme_has_these_figures() {
    let readme = include_str!("../../../README.md");
    let words: Vec<&str> = readme.split_whitespace().collect();
    let said = "had 5 entries at 0 and 5 at −10 with noise of up to 2 levels, \
        8 and 18 with noise of up to 12, 5 and 322 with noise of up to 48, and with noise of up to 128 \
        it had 6 at 0 and at −10 was turned down on ground 11.";
    assert!(words.join(" ").contains(said), "README.md");
}
