//! Numbers that a group has to reach, whatever the count of the run: what is counted, and how often.

use crate::comparison::Failure;

pub type Named<const N: usize> = [(&'static str, u64); N];

pub fn told<const N: usize>(found: Named<N>) -> String {
    let told = |(what, found)| format!("{found} {what}");
    found.map(told).join(", ")
}

/// Both name the same in the same order.
pub fn reached<const N: usize>(found: Named<N>, least: Named<N>) -> Result<(), Failure> {
    for ((what, found), (_, least)) in found.into_iter().zip(least) {
        if found < least {
            return Err(Failure::TooFew(format!(
                "{what}: {found}, but {least} at least are to be compared"
            )));
        }
    }
    Ok(())
}

#[cfg(test)]
mod tests {
    use super::*;

    #[test]
    fn each_number_can_be_too_small() {
        let least = [("a", 3), ("b", 2), ("c", 1)];
        assert!(reached(least, least).is_ok());
        for place in 0..least.len() {
            let mut found = least;
            found[place].1 -= 1;
            assert!(matches!(reached(found, least), Err(Failure::TooFew(_))));
        }
    }
}
