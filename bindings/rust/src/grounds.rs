//! The grounds on which a call is turned down.

use core::error::Error;
use core::fmt;

/// The enum and what is known about each of its cases, from one list.
macro_rules! grounds {
    ($($name:ident = $number:literal: $sentence:literal,)*) => {
        /// Why a call was turned down. A call tests the grounds that concern it in the order of their numbers, and the
        /// first that holds is given. Numbers and sentences are those of the engine's rules; a number never gets another
        /// meaning, and later versions may add numbers.
        ///
        /// ```
        /// # use kistrovu::{fit, Direction, Ground};
        /// let ground = fit(&[5], Direction::Increasing).unwrap_err();
        /// assert_eq!(ground, Ground::Bins);
        /// assert_eq!(ground.number(), 6);
        /// assert_eq!(ground.to_string(), "6. The histogram has fewer than 2 bins or more than 256.");
        /// ```
        #[derive(Clone, Copy, Debug, PartialEq, Eq, Hash)]
        #[non_exhaustive]
        #[repr(u32)]
        pub enum Ground {
            $(#[doc = $sentence] $name = $number,)*
            /// The library gave a number that this crate does not know, which only a library of a later version can do.
            /// The calls of [`raw`](crate::raw) have the number itself.
            Unlisted = u32::MAX,
        }

        impl Ground {
            /// The grounds of the rules, in the order in which they are tested: all but [`Unlisted`](Ground::Unlisted).
            ///
            /// ```
            /// # use kistrovu::Ground;
            /// assert_eq!(Ground::LISTED.len(), 12);
            /// assert_eq!(Ground::LISTED[10], Ground::Entries);
            /// assert_eq!(Ground::LISTED[11], Ground::Log);
            /// ```
            pub const LISTED: &'static [Ground] = &[$(Ground::$name,)*];

            /// The sentence of the rules.
            ///
            /// ```
            /// # use kistrovu::Ground;
            /// assert_eq!(Ground::Closeness.sentence(), "The closeness is below -10 or above 20.");
            /// ```
            pub const fn sentence(self) -> &'static str {
                match self {
                    $(Ground::$name => $sentence,)*
                    Ground::Unlisted => "The number is not of this list.",
                }
            }
        }
    };
}

grounds! {
    Header = 1: "The first line of the swatch is not a header of two fields.",
    Size = 2: "The width times the height is 0 or above 16,384.",
    Lines = 3: "A pixel line is not three numbers from 0 to 255, or there are fewer or more lines than pixels.",
    Bytes = 4: "There are no pixel bytes, or their number is not a multiple of 3.",
    Pixels = 5: "The image has more than 65,536 pixels.",
    Bins = 6: "The histogram has fewer than 2 bins or more than 256.",
    Sum = 7: "The counts of the histogram add up to more than 65,536.",
    Closeness = 8: "The closeness is below -10 or above 20.",
    Labels = 9: "The label buffer does not have one place for each pixel, or for each one-byte label that is read into it.",
    Separators = 10: "The separator list, or the list to write a log in, has fewer places than the histogram has bins.",
    Entries = 11: "The card would have more than 1,000 entries.",
    Log = 20: "The log is not the one that the method writes for the line.",
}

impl Ground {
    /// The number of the ground.
    ///
    /// ```
    /// # use kistrovu::Ground;
    /// assert_eq!(Ground::Separators.number(), 10);
    /// ```
    pub const fn number(self) -> u32 {
        self as u32
    }

    /// The ground of an answer's number: none for 0, which says that the call was served, and
    /// [`Unlisted`](Ground::Unlisted) for a number that is not on the list.
    ///
    /// ```
    /// # use kistrovu::Ground;
    /// assert_eq!(Ground::from_number(0), None);
    /// assert_eq!(Ground::from_number(10), Some(Ground::Separators));
    /// assert_eq!(Ground::from_number(12), Some(Ground::Unlisted));
    /// assert_eq!(Ground::from_number(20), Some(Ground::Log));
    /// ```
    pub fn from_number(number: u32) -> Option<Ground> {
        let listed = || Ground::LISTED.iter().find(|g| g.number() == number);
        match number {
            0 => None,
            _ => Some(listed().copied().unwrap_or(Ground::Unlisted)),
        }
    }

    /// An error if this number says that the call was turned down.
    pub(crate) fn check(number: u32) -> Result<(), Ground> {
        Ground::from_number(number).map_or(Ok(()), Err)
    }
}

impl fmt::Display for Ground {
    fn fmt(&self, f: &mut fmt::Formatter<'_>) -> fmt::Result {
        write!(f, "{}. {}", self.number(), self.sentence())
    }
}

impl Error for Ground {}
