//! Swatches made up for tests, examples and benchmarks: the same from the same seed everywhere.

pub mod damaged;
pub mod full_cards;
pub mod random;
pub mod stored;
pub mod swatch;
pub mod weaves;
pub mod well_formed;
pub mod yarns;
