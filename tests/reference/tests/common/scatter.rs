//! Lines of counts, for tests that want many of them.

/// Counts without a pattern, the same ones at every run.
pub struct Scatter(pub u64);

impl Scatter {
    fn below(&mut self, end: u64) -> u64 {
        self.0 = self.0.wrapping_mul(6_364_136_223_846_793_005);
        self.0 = self.0.wrapping_add(1_442_695_040_888_963_407);
        (self.0 >> 33) % end
    }

    pub fn line(&mut self, bins: usize, least: u64, range: u64) -> Vec<u64> {
        (0..bins).map(|_| least + self.below(range)).collect()
    }
}
