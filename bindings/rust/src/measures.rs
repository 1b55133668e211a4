//! The measures of a pixel.

use crate::raw;

/// The bins of a pixel's intensity, saturation and hue, and whether it is grey.
#[derive(Clone, Copy, Debug, PartialEq, Eq, Hash)]
pub struct Measures {
    /// 0 to 51.
    pub intensity: u8,
    /// 0 to 41.
    pub saturation: u8,
    /// 0 to 59, 6° each; 0 for a grey, which has no hue.
    pub hue: u8,
    /// Of so little saturation that it counts as a grey.
    pub grey: bool,
}

/// The measures of one pixel. No ground concerns it: it is always served.
///
/// ```
/// # use kistrovu::{measures, Measures};
/// let red = measures(255, 0, 0);
/// assert_eq!(red, Measures { intensity: 17, saturation: 41, hue: 45, grey: false });
/// assert!(measures(13, 9, 0).grey);
/// assert!(!measures(13, 10, 0).grey);
/// ```
pub fn measures(red: u8, green: u8, blue: u8) -> Measures {
    // SAFETY: the call takes and hands back plain numbers.
    let answer = unsafe { raw::kistrovu_measures(red, green, blue) };
    read(answer.measures)
}

fn read(measures: raw::Measures) -> Measures {
    Measures {
        intensity: measures.intensity,
        saturation: measures.saturation,
        hue: measures.hue,
        grey: measures.grey != 0,
    }
}

#[cfg(test)]
mod tests {
    use super::*;

    #[test]
    fn a_flag_is_any_byte_but_zero() {
        for (grey, expected) in [(0, false), (1, true), (2, true), (255, true)] {
            let measures = raw::Measures {
                intensity: 1,
                saturation: 2,
                hue: 3,
                grey,
            };
            let expected = Measures {
                intensity: 1,
                saturation: 2,
                hue: 3,
                grey: expected,
            };
            assert_eq!(read(measures), expected);
        }
    }
}
