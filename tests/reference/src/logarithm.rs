//! The logarithm.

/// How many rounds are done, each of which settles one binary place.
pub const ROUNDS: u32 = 26;

/// One bit, in units of the logarithm.
pub const UNIT: u64 = 1 << ROUNDS;

/// lg(x), for 1 ≤ x < 2^32, in units of 1/`UNIT` of a bit.
pub fn lg(x: u64) -> u64 {
    assert!(
        (1..1 << 32).contains(&x),
        "lg is for 1 up to 2^32, not for {x}"
    );
    let whole = x.ilog2();
    let mut y = x << (31 - whole);
    let mut lg = UNIT * u64::from(whole);
    for place in (0..ROUNDS).rev() {
        // Below 2^64, as y is below 2^32.
        let square = y * y;
        let high = square >= 1 << 63;
        y = square >> if high { 32 } else { 31 };
        lg += u64::from(high) << place;
    }
    lg
}

#[cfg(test)]
mod tests {
    use super::*;

    #[test]
    fn a_bit_has_as_many_units_as_l1_says() {
        assert_eq!(UNIT, 67_108_864);
    }

    #[test]
    fn powers_of_two_are_exact() {
        for power in 0..32 {
            assert_eq!(lg(1 << power), power * UNIT);
        }
    }

    #[test]
    fn doubling_adds_one_bit() {
        for x in 1..5000 {
            assert_eq!(lg(2 * x), lg(x) + UNIT);
        }
    }

    /// 2^lg ≤ x^(2^26) < 2^(lg+2), as nearly as floating point can tell, which is within a millionth of a unit: a
    /// logarithm below 32 is off by at most 2^-48 as an `f64`, which is 2^-22 of a unit.
    #[test]
    fn bounds_hold() {
        let last = (1u64 << 32) - 1;
        for x in (1..100_000).chain((0..100_000).map(|back| last - back)) {
            let exact = (x as f64).log2() * UNIT as f64;
            let below = exact - lg(x) as f64;
            let near = 1e-6;
            assert!(-near < below && below < 2.0 + near, "{x}: {below}");
        }
    }
}
