//! A second implementation of docs/METHOD.md: a pixel's measures, pooling, the logarithm, the test, modes of lines
//! and rings, the log of a line's joins, the card, the card program's texts, and the public calls built from them. It is
//! written to be read beside the rules, clear rather than fast, and deliberately by other means than the engine, so that a
//! slip in one is unlikely to occur in the other as well.
//!
//! One module for each section of the rules, `steps` for pooling that goes from bin to bin, and `turns` for what turning
//! a ring does to it. To run its own tests: `cargo test -p reference` in `tests/`.

pub mod calls;
pub mod cards;
pub mod lines;
pub mod logarithm;
pub mod logs;
pub mod measures;
pub mod pooling;
pub mod rings;
pub mod steps;
pub mod swatches;
pub mod test;
pub mod turns;
