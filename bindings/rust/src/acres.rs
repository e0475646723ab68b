//! Rounded acreage.

use crate::parse::{number, ParseError};
use std::fmt;
use std::iter::Sum;
use std::ops::{Add, AddAssign};
use std::str::FromStr;

/// The number of hundredths in an acre.
const HUNDREDTHS: u64 = 100;

/// An acreage in hundredths of an acre: an exact area, rounded once, half up.
///
/// It is displayed with two decimal places, and parsed from such a text. Each figure is rounded
/// independently, so the sum of the figures for two tracts may not be the figure for both together;
/// add exact areas ([`Area`](crate::Area)) to get that. A sum that is too large panics.
///
/// ```
/// # let notes = include_bytes!(concat!(env!("TOWNSHIP_FILES"), "/samples/b1.csv"));
/// # let plat = township::Plat::read(notes)?;
/// let acres = plat.acres("sec. 5, lots 1 and 2, S1/2NE1/4.")?;
/// assert_eq!(acres.hundredths(), 16_100);
/// assert_eq!(acres.to_string(), "161.00");
/// assert_eq!(acres + plat.acres("sec. 36.")?, "801.00".parse().unwrap());
/// # Ok::<(), township::Refused>(())
/// ```
#[derive(Clone, Copy, Debug, Default, PartialEq, Eq, PartialOrd, Ord, Hash)]
pub struct Acres {
    hundredths: u64,
}

impl Acres {
    /// Makes an acreage from a number of hundredths of an acre.
    ///
    /// ```
    /// assert_eq!(township::Acres::from_hundredths(63).to_string(), "0.63");
    /// ```
    pub const fn from_hundredths(hundredths: u64) -> Acres {
        Acres { hundredths }
    }

    /// Returns the acreage in hundredths of an acre.
    pub const fn hundredths(self) -> u64 {
        self.hundredths
    }

    /// Parses a text such as `161.00`: digits only, with two decimal places.
    fn from_text(text: &str) -> Option<Acres> {
        let (whole, decimals) = text.split_once('.')?;
        if decimals.len() != 2 {
            return None;
        }
        let hundredths = number::<u64>(whole)?.checked_mul(HUNDREDTHS)?;
        hundredths
            .checked_add(number(decimals)?)
            .map(Acres::from_hundredths)
    }
}

impl FromStr for Acres {
    type Err = ParseError;

    /// Parses digits with two decimal places, such as `161.00`.
    fn from_str(text: &str) -> Result<Acres, ParseError> {
        Acres::from_text(text).ok_or(ParseError::not("an acreage, such as 161.00"))
    }
}

impl Add for Acres {
    type Output = Acres;

    /// Adds figures. Panics if the sum does not fit.
    fn add(self, other: Acres) -> Acres {
        let sum = self.hundredths.checked_add(other.hundredths);
        Acres::from_hundredths(sum.expect("a sum of acreages is too large"))
    }
}

impl AddAssign for Acres {
    fn add_assign(&mut self, other: Acres) {
        *self = *self + other;
    }
}

impl Sum for Acres {
    fn sum<I: Iterator<Item = Acres>>(acres: I) -> Acres {
        acres.fold(Acres::default(), Acres::add)
    }
}

impl<'a> Sum<&'a Acres> for Acres {
    fn sum<I: Iterator<Item = &'a Acres>>(acres: I) -> Acres {
        acres.copied().sum()
    }
}

impl fmt::Display for Acres {
    /// Writes two decimal places. Width and fill work as they do for numbers; precision is ignored.
    fn fmt(&self, f: &mut fmt::Formatter<'_>) -> fmt::Result {
        let (whole, decimals) = (self.hundredths / HUNDREDTHS, self.hundredths % HUNDREDTHS);
        f.pad_integral(true, "", &format!("{whole}.{decimals:02}"))
    }
}

#[cfg(test)]
mod tests {
    use super::*;

    const WRITTEN: [(u64, &str); 6] = [
        (0, "0.00"),
        (5, "0.05"),
        (63, "0.63"),
        (100, "1.00"),
        (2_303_757, "23037.57"),
        (u64::MAX, "184467440737095516.15"),
    ];

    #[test]
    fn two_decimal_places() {
        for (hundredths, text) in WRITTEN {
            assert_eq!(Acres::from_hundredths(hundredths).to_string(), text);
        }
    }

    #[test]
    fn written_in_a_column() {
        let acres = Acres::from_hundredths(16_100);
        assert_eq!(format!("{acres:9}|"), "   161.00|");
        assert_eq!(format!("{acres:<9}|"), "161.00   |");
        assert_eq!(format!("{acres:.1}"), "161.00");
    }

    #[test]
    fn read_as_they_are_written() {
        for (hundredths, text) in WRITTEN {
            assert_eq!(text.parse(), Ok(Acres::from_hundredths(hundredths)));
        }
        for text in [
            "",
            ".",
            "1",
            "1.",
            "1.0",
            "1.000",
            ".00",
            "+1.00",
            "1.+0",
            "-1.00",
            "1.00 ",
            "1,00",
            "1.0.0",
            "184467440737095516.16",
            "184467440737095517.00",
            "99999999999999999999.00",
        ] {
            let error = text.parse::<Acres>().unwrap_err();
            assert_eq!(
                error.to_string(),
                "not an acreage, such as 161.00",
                "{text}"
            );
        }
    }

    #[test]
    fn sums() {
        let acres = [4_045, 16_000, 0].map(Acres::from_hundredths);
        assert_eq!(acres[0] + acres[1], Acres::from_hundredths(20_045));
        assert_eq!(acres.iter().sum::<Acres>(), Acres::from_hundredths(20_045));
        assert_eq!(acres.into_iter().sum::<Acres>(), acres[0] + acres[1]);
        assert_eq!([].iter().sum::<Acres>(), Acres::default());
        let mut total = acres[0];
        total += acres[0];
        assert_eq!(total, Acres::from_hundredths(8_090));
    }

    #[test]
    #[should_panic(expected = "a sum of acreages is too large")]
    fn sum_that_is_too_large() {
        let _ = Acres::from_hundredths(u64::MAX) + Acres::from_hundredths(1);
    }
}
