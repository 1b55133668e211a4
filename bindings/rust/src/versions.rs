//! The version of the library.

use crate::raw;
use core::fmt;

/// A version, as in `1.0.0`. A later one is greater.
#[derive(Clone, Copy, Debug, PartialEq, Eq, PartialOrd, Ord, Hash)]
pub struct Version {
    /// Raised when a declaration, a number or a figure's meaning changes.
    pub major: u32,
    /// Raised when something is added.
    pub minor: u32,
    /// Raised when anything else changes.
    pub patch: u32,
}

impl fmt::Display for Version {
    fn fmt(&self, f: &mut fmt::Formatter<'_>) -> fmt::Result {
        write!(f, "{}.{}.{}", self.major, self.minor, self.patch)
    }
}

/// The version of the library that is linked. No ground concerns it.
///
/// ```
/// # use kistrovu::{version, Version};
/// assert!(version() >= Version { major: 1, minor: 0, patch: 0 });
/// println!("Kistrovu {}", version());
/// ```
pub fn version() -> Version {
    // SAFETY: the call hands back a plain number.
    read(unsafe { raw::kistrovu_version() })
}

fn read(number: u32) -> Version {
    Version {
        major: number / 10_000,
        minor: number / 100 % 100,
        patch: number % 100,
    }
}

#[cfg(test)]
mod tests {
    use super::*;
    use std::string::ToString;

    #[test]
    fn the_three_numbers_are_taken_apart() {
        for (number, text) in [
            (10_000, "1.0.0"),
            (10_203, "1.2.3"),
            (19_999, "1.99.99"),
            (120_304, "12.3.4"),
            (0, "0.0.0"),
            (u32::MAX, "429496.72.95"),
        ] {
            assert_eq!(read(number).to_string(), text);
        }
    }

    #[test]
    fn a_later_version_is_greater() {
        assert!(read(10_000) < read(10_001));
        assert!(read(10_099) < read(10_100));
        assert!(read(19_999) < read(20_000));
    }
}
