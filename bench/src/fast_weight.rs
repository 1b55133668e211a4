//! The weight of a part, written for speed: most parts are told apart from the heaviest one by bounds that need no
//! logarithm, and small logarithms are read from a sheet.
//!
//! A part has x = kB counts against a fitted mass of A, out of T = NB for the whole stretch. With p = x/T and q = A/T,
//! ln(X/Y) is N times the relative entropy p ln(p/q) + (1 - p) ln((1 - p)/(1 - q)), and that is the integral of
//! (t - p) g(t) for t from p to q, with g(t) = 1/(t(1 - t)), which is convex. So with d = |x - A|, D = A(T - A) and
//! E = x(T - x) the relative entropy is
//!
//! - at most d²/D: by the inequality of weighted means it is at most ln(1 + d²/D);
//! - at most d²/(2 min(D, E)), since g is largest at one end;
//! - at most d²(D + 2E)/(6DE), where g is replaced by its chord, which lies above it;
//! - at least 9d²/(2m(3T - m)) with m = x + 2A, where g is replaced by its value at the mean of t, which is (p + 2q)/3.
//!
//! The weight is 2^ROUNDS/ln 2 times ln(X/Y), give or take 2N units, since a logarithm is short by 2 units at most (L4).

use reference::calls::MOST_BINS;
use reference::logarithm::ROUNDS;

/// A part's count k and fitted mass A/B.
#[derive(Clone, Copy)]
pub struct Part {
    pub count: u64,
    pub mass: u64,
    pub over: u64,
}

/// The largest weight so far, of a stretch of so many counts; the whole stretch weighs 0.
pub struct Largest {
    pub weight: i64,
    total: u64,
    /// (weight - 2N) ln 2 / (N 2^ROUNDS), the least relative entropy that could weigh more: in units of 1/2^64, rounded
    /// down, and 0 as long as it is below 0.
    entropy: u64,
}

/// ln 2 with so many binary places, rounded down.
const LN_2: u64 = 46_516_319;
const LN_2_PLACES: u32 = 26;
/// With the places of the units and of ln 2 they make 64.
const QUOTIENT_PLACES: u32 = 64 - ROUNDS - LN_2_PLACES;

/// Far more than all roundings of one comparison in floating point together: fewer than 16, each by less than 2^-52.
const MARGIN: f64 = 1.0 / (1u64 << 40) as f64;
const UNITS: f64 = (1u64 << ROUNDS) as f64 / std::f64::consts::LN_2;
const UNITS_AT_LEAST: f64 = UNITS * (1.0 - MARGIN);
const UNITS_AT_MOST: f64 = UNITS * (1.0 + MARGIN);

impl Largest {
    pub fn new(total: u64) -> Largest {
        Largest {
            weight: 0,
            total,
            entropy: 0,
        }
    }

    /// Whether the part is sure to weigh no more, by the first two bounds.
    #[inline(always)]
    pub fn covers(&self, part: Part) -> bool {
        let Part { count, mass, over } = part;
        let counted = count * over;
        if counted == mass {
            return true;
        }
        let all = self.total * over;
        let apart = counted.abs_diff(mass);
        let fitted_room = mass * (all - mass);
        let counted_room = counted * (all - counted);
        let room = fitted_room.max(2 * fitted_room.min(counted_room));
        apart * apart <= high(room, self.entropy)
    }

    /// The same by the third bound, which is much closer and takes longer.
    #[inline(always)]
    pub fn covers_closely(&self, part: Part) -> bool {
        let Part { count, mass, over } = part;
        let (total, mass, over) = (self.total as f64, mass as f64, over as f64);
        let (all, counted) = (total * over, count as f64 * over);
        let apart = counted - mass;
        let (fitted_room, counted_room) = (mass * (all - mass), counted * (all - counted));
        let most = UNITS_AT_MOST * total * apart * apart * (fitted_room + 2.0 * counted_room);
        most <= (self.weight as f64 - 2.0 * total) * 6.0 * fitted_room * counted_room
    }

    /// Whether the part is sure to weigh so much.
    #[inline(always)]
    pub fn reaches(&self, part: Part, weight: i64) -> bool {
        let Part { count, mass, over } = part;
        let (total, mass, over) = (self.total as f64, mass as f64, over as f64);
        let (all, counted) = (total * over, count as f64 * over);
        let apart = counted - mass;
        let mean = counted + 2.0 * mass;
        let least = UNITS_AT_LEAST * total * apart * apart * 9.0;
        least >= (weight as f64 + 2.0 * total) * 2.0 * mean * (3.0 * all - mean)
    }

    #[inline(always)]
    pub fn raise(&mut self, weight: i64) {
        if weight > self.weight {
            self.weight = weight;
            let sure = (weight - 2 * self.total as i64).max(0) as u64;
            // Below 2^48, so that the shift keeps all its bits.
            self.entropy = ((sure << QUOTIENT_PLACES) / self.total).saturating_mul(LN_2);
        }
    }

    #[inline(always)]
    pub fn weigh(&self, part: Part) -> i64 {
        let Part { count, mass, over } = part;
        let outside = self.total - count;
        let outside_mass = self.total * over - mass;
        if count == 0 {
            let [a, b] = lg([outside * over, outside_mass]);
            outside as i64 * (a as i64 - b as i64)
        } else if outside == 0 {
            let [a, b] = lg([count * over, mass]);
            count as i64 * (a as i64 - b as i64)
        } else {
            let [a, b, c, d] = lg([count * over, mass, outside * over, outside_mass]);
            count as i64 * (a as i64 - b as i64) + outside as i64 * (c as i64 - d as i64)
        }
    }
}

/// The upper 64 bits of a product.
fn high(a: u64, b: u64) -> u64 {
    ((u128::from(a) * u128::from(b)) >> 64) as u64
}

/// The bar of a stretch of so many bins.
pub fn bar(bins: usize, closeness: i32) -> i64 {
    i64::from(BARS[bins]) + (i64::from(closeness) << ROUNDS)
}

/// The bars at closeness 0, by the number of bins, since every stretch needs its bar. No bins have none.
static BARS: [u32; MOST_BINS + 1] = bars();

const fn bars() -> [u32; MOST_BINS + 1] {
    let mut table = [0; MOST_BINS + 1];
    let mut bins = 1;
    while bins < table.len() {
        table[bins] = one_lg((bins * (bins + 1) / 2) as u64) as u32;
        bins += 1;
    }
    table
}

/// Odd numbers below this are on the sheet.
const SHEET_END: usize = 8_192;
/// The logarithms of 1, 3, 5 and so on: a factor of 2 adds one bit exactly.
static SHEET: [u32; SHEET_END / 2] = sheet();

const fn sheet() -> [u32; SHEET_END / 2] {
    let mut table = [0; SHEET_END / 2];
    let mut place = 0;
    while place < table.len() {
        table[place] = one_lg(2 * place as u64 + 1) as u32;
        place += 1;
    }
    table
}

const fn one_lg(x: u64) -> u64 {
    let mut bits = x.ilog2() as u64;
    let mut y = x << (31 - x.ilog2());
    let mut round = 0;
    while round < ROUNDS {
        let high = (y * y) >> 63;
        y = (y * y) >> (31 + high);
        bits = 2 * bits + high;
        round += 1;
    }
    bits
}

/// Several logarithms at once. They are read from the sheet only if all are on it: the rounds of one take nearly as long
/// as those of four.
#[inline(always)]
fn lg<const LANES: usize>(numbers: [u64; LANES]) -> [u64; LANES] {
    let twos = numbers.map(u64::trailing_zeros);
    let odd: [u64; LANES] = std::array::from_fn(|lane| numbers[lane] >> twos[lane]);
    if odd.iter().all(|&odd| odd < SHEET_END as u64) {
        let read =
            |lane| u64::from(SHEET[odd[lane] as usize / 2]) + (u64::from(twos[lane]) << ROUNDS);
        std::array::from_fn(read)
    } else {
        lg_by_rounds(numbers)
    }
}

/// Side by side, which hides the latency of the squares.
#[inline(always)]
fn lg_by_rounds<const LANES: usize>(numbers: [u64; LANES]) -> [u64; LANES] {
    let whole = numbers.map(|x| 63 - u64::from(x.leading_zeros()));
    let mut y: [u64; LANES] = std::array::from_fn(|lane| numbers[lane] << (31 - whole[lane]));
    let mut bits = whole;
    for _ in 0..ROUNDS {
        for lane in 0..LANES {
            let square = y[lane] * y[lane];
            let high = square >= 1 << 63;
            y[lane] = if high { square >> 32 } else { square >> 31 };
            bits[lane] = 2 * bits[lane] + u64::from(high);
        }
    }
    bits
}

#[cfg(test)]
mod tests {
    use super::*;
    use cloths::random::Random;
    use reference::test::parts;

    /// Histograms of up to 40 bins, from nearly empty to full.
    fn histograms() -> Vec<Vec<u64>> {
        let mut random = Random::new(1);
        let mut histogram = || {
            let most = 1 << random.below(11);
            (0..2 + random.below(39))
                .map(|_| random.below(most + 1) as u64)
                .collect()
        };
        (0..200).map(|_| histogram()).collect()
    }

    fn each_weight(mut check: impl FnMut(u64, Part, i64)) {
        for histogram in histograms() {
            let total = histogram.iter().sum();
            for part in parts(&histogram, true) {
                let weight = part.weight(total);
                let reference::test::Part { count, mass, over } = part;
                check(total, Part { count, mass, over }, weight);
            }
        }
    }

    #[test]
    fn weights_are_those_of_the_reference() {
        each_weight(|total, part, weight| {
            if part.mass != part.count * part.over {
                assert_eq!(Largest::new(total).weigh(part), weight);
            }
        });
    }

    #[test]
    fn no_bound_says_too_much() {
        each_weight(|total, part, weight| {
            let mut largest = Largest::new(total);
            assert!(part.mass == part.count * part.over || !largest.reaches(part, weight + 1));
            if weight > 0 {
                largest.raise(weight - 1);
                assert!(!largest.covers(part) && !largest.covers_closely(part));
            }
        });
    }
}
