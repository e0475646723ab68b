//! Exact areas.

use crate::acres::Acres;
use crate::ffi::Fraction;
use crate::parse::{number, ParseError};
use std::cmp::Ordering;
use std::fmt;
use std::iter::Sum;
use std::ops::{Add, AddAssign};
use std::str::FromStr;

/// The number of square thousandths of a chain in an acre, which is ten square chains.
const UNITS_IN_ACRE: u128 = 10_000_000;

/// An exact area in acres, as a fraction in lowest terms.
///
/// It is displayed as `809/20`, or `640` for whole acres, and parsed from such a text. Areas can be
/// added. The areas of land on a plat have small denominators; a sum with numbers of more than 128
/// bits panics.
///
/// ```
/// # let notes = include_bytes!(concat!(env!("TOWNSHIP_FILES"), "/samples/b1.csv"));
/// # let plat = township::Plat::read(notes)?;
/// let area = plat.area("sec. 5, lot 1.")?;
/// assert_eq!((area.numerator(), area.denominator()), (809, 20));
/// assert_eq!(area.to_string(), "809/20");
/// assert!(plat.area("sec. 5, lot 2.")? > area);
/// assert_eq!(area + area, plat.area("sec. 5, lot 1.")? + "809/20".parse().unwrap());
/// assert_eq!((area + area).rounded().to_string(), "80.90");
/// # Ok::<(), township::Refused>(())
/// ```
#[derive(Clone, Copy, Debug, PartialEq, Eq, Hash)]
pub struct Area {
    numerator: u128,
    denominator: u128,
}

impl Area {
    /// No area.
    pub const ZERO: Area = Area {
        numerator: 0,
        denominator: 1,
    };

    /// Returns the numerator.
    pub const fn numerator(self) -> u128 {
        self.numerator
    }

    /// Returns the denominator, which is at least 1 and has no factor in common with the numerator.
    pub const fn denominator(self) -> u128 {
        self.denominator
    }

    /// Returns the area rounded once to hundredths of an acre, half up, as
    /// [`Plat::acres`](crate::Plat::acres) rounds it. Panics if the figure or a number on the way to
    /// it does not fit, which no area of land in a township comes near.
    ///
    /// ```
    /// # use township::Area;
    /// let total: Area = ["1/200", "1/400"].map(|area| area.parse::<Area>().unwrap()).iter().sum();
    /// assert_eq!(total.rounded().to_string(), "0.01");
    /// ```
    pub fn rounded(self) -> Acres {
        self.hundredths()
            .map(Acres::from_hundredths)
            .expect("an area is too large to be rounded")
    }

    /// Converts an area written by the library. Its units are less than 10 to the 24th, and their
    /// divisor has 64 bits, so no number here has more than 88 bits.
    pub(crate) fn from_fraction(fraction: Fraction) -> Area {
        let units = (u128::from(fraction.units_high) << 64) | u128::from(fraction.units_low);
        Area::reduced(units, u128::from(fraction.over) * UNITS_IN_ACRE)
    }

    /// Reduces a fraction to lowest terms. The denominator must not be 0.
    fn reduced(numerator: u128, denominator: u128) -> Area {
        let common = common_divisor(numerator, denominator);
        Area {
            numerator: numerator / common,
            denominator: denominator / common,
        }
    }
}

impl Area {
    /// Adds two areas, if the numbers of the sum have at most 128 bits.
    fn plus(self, other: Area) -> Option<Area> {
        let common = common_divisor(self.denominator, other.denominator);
        let denominator = self.denominator.checked_mul(other.denominator / common)?;
        let parts = self.numerator.checked_mul(other.denominator / common)?;
        let others = other.numerator.checked_mul(self.denominator / common)?;
        Some(Area::reduced(parts.checked_add(others)?, denominator))
    }

    /// Returns the hundredths of an acre, rounded half up, if the numbers have at most 128 bits.
    fn hundredths(self) -> Option<u64> {
        let (whole, rest) = (
            self.numerator / self.denominator,
            self.numerator % self.denominator,
        );
        // Half up: the whole part of a number that is greater by a half.
        let twice = rest.checked_mul(200)?.checked_add(self.denominator)?;
        let rounded = twice / self.denominator.checked_mul(2)?;
        whole
            .checked_mul(100)?
            .checked_add(rounded)?
            .try_into()
            .ok()
    }

    /// Parses a text such as `809/20` or `640`. The fraction need not be in lowest terms.
    fn from_text(text: &str) -> Option<Area> {
        let (numerator, denominator) = text.split_once('/').unwrap_or((text, "1"));
        let denominator = number(denominator).filter(|&denominator| denominator != 0)?;
        Some(Area::reduced(number(numerator)?, denominator))
    }
}

impl Default for Area {
    fn default() -> Area {
        Area::ZERO
    }
}

impl FromStr for Area {
    type Err = ParseError;

    /// Parses a fraction, such as `809/20`, or a whole number of acres.
    fn from_str(text: &str) -> Result<Area, ParseError> {
        Area::from_text(text).ok_or(ParseError::not("an area, such as 809/20"))
    }
}

impl Add for Area {
    type Output = Area;

    /// Adds areas exactly. Panics if a number of the sum has more than 128 bits.
    fn add(self, other: Area) -> Area {
        self.plus(other)
            .expect("a sum of areas has more than 128 bits")
    }
}

impl AddAssign for Area {
    fn add_assign(&mut self, other: Area) {
        *self = *self + other;
    }
}

impl Sum for Area {
    fn sum<I: Iterator<Item = Area>>(areas: I) -> Area {
        areas.fold(Area::ZERO, Area::add)
    }
}

impl<'a> Sum<&'a Area> for Area {
    fn sum<I: Iterator<Item = &'a Area>>(areas: I) -> Area {
        areas.copied().sum()
    }
}

/// Returns the greatest common divisor of two numbers that are not both 0.
fn common_divisor(mut a: u128, mut b: u128) -> u128 {
    while b != 0 {
        (a, b) = (b, a % b);
    }
    a
}

impl PartialOrd for Area {
    fn partial_cmp(&self, other: &Area) -> Option<Ordering> {
        Some(self.cmp(other))
    }
}

impl Ord for Area {
    /// Compares whole acres first and, if they are equal, the remainders. Cross multiplication
    /// could overflow.
    fn cmp(&self, other: &Area) -> Ordering {
        let (mut a, mut b) = (*self, *other);
        loop {
            let by_whole = (a.numerator / a.denominator).cmp(&(b.numerator / b.denominator));
            let (a_left, b_left) = (a.numerator % a.denominator, b.numerator % b.denominator);
            if by_whole.is_ne() || a_left == 0 || b_left == 0 {
                return by_whole.then(a_left.cmp(&b_left));
            }
            // Compare the reciprocals of the remainders, which reverses the order.
            (a, b) = (
                Area {
                    numerator: b.denominator,
                    denominator: b_left,
                },
                Area {
                    numerator: a.denominator,
                    denominator: a_left,
                },
            );
        }
    }
}

impl fmt::Display for Area {
    /// Writes `809/20`, for example, or `640` for whole acres.
    fn fmt(&self, f: &mut fmt::Formatter<'_>) -> fmt::Result {
        if self.denominator == 1 {
            return write!(f, "{}", self.numerator);
        }
        write!(f, "{}/{}", self.numerator, self.denominator)
    }
}

#[cfg(test)]
mod tests {
    use super::*;

    fn area(units_low: u64, units_high: u64, over: u64) -> Area {
        Area::from_fraction(Fraction {
            units_low,
            units_high,
            over,
        })
    }

    #[test]
    fn units_are_parts_of_an_acre() {
        // 40.45 acres are 404,500,000 units.
        assert_eq!(area(404_500_000, 0, 1), Area::reduced(809, 20));
        assert_eq!(area(809_000_000, 0, 2), Area::reduced(809, 20));
        assert_eq!(area(0, 0, 7), Area::reduced(0, 1));
    }

    #[test]
    fn high_bits_count() {
        // Two to the 64th over 10,000,000, which has seven twos in common with it.
        let large = area(0, 1, 1);
        assert_eq!(large.numerator(), 1 << 57);
        assert_eq!(large.denominator(), 78_125);
    }

    #[test]
    fn greatest_numbers() {
        // 10 to the 24th, less 1, is 54,210 times 2 to the 64th, and 2,003,764,205,206,896,639.
        let units = 10_u128.pow(24) - 1;
        let over = u128::from(u64::MAX) * UNITS_IN_ACRE;
        let least = area(2_003_764_205_206_896_639, 54_210, u64::MAX);
        let most = area(2_003_764_205_206_896_639, 54_210, 1);
        assert_eq!(least, Area::reduced(units, over));
        assert_eq!(most, Area::reduced(units, UNITS_IN_ACRE));
        assert!(least < most);
    }

    #[test]
    fn written() {
        assert_eq!(Area::reduced(640, 1).to_string(), "640");
        assert_eq!(Area::reduced(809, 20).to_string(), "809/20");
        assert_eq!(Area::reduced(0, 3).to_string(), "0");
    }

    #[test]
    fn read_as_they_are_written() {
        for (numerator, denominator) in [(0, 1), (640, 1), (809, 20), (u128::MAX, 2)] {
            let area = Area::reduced(numerator, denominator);
            assert_eq!(area.to_string().parse(), Ok(area));
        }
        assert_eq!("1618/40".parse(), Ok(Area::reduced(809, 20)));
        for text in ["", "/", "1/", "1/0", "-1", "1/2/3", "1.5", " 1", "0x1"] {
            let error = text.parse::<Area>().unwrap_err();
            assert_eq!(error.to_string(), "not an area, such as 809/20", "{text}");
        }
    }

    #[test]
    fn sums() {
        // 1/6 and 1/10 are 4/15; with 11/15 that is 1.
        let areas = [(1, 6), (1, 10), (11, 15)].map(|(a, b)| Area::reduced(a, b));
        assert_eq!(areas[0] + areas[1], Area::reduced(4, 15));
        assert_eq!(areas.iter().sum::<Area>(), Area::reduced(1, 1));
        assert_eq!(areas.into_iter().sum::<Area>(), Area::reduced(1, 1));
        assert_eq!([].iter().sum::<Area>(), Area::default());
        let mut total = areas[0];
        total += areas[0];
        assert_eq!(total, Area::reduced(1, 3));
        let large = Area::reduced(u128::MAX, 7);
        assert_eq!(large + Area::ZERO, large);
    }

    #[test]
    fn rounded_half_up() {
        for (numerator, denominator, hundredths) in [
            (0, 1, 0),
            (1, 200, 1),
            (1, 201, 0),
            (3, 200, 2),
            (1567, 40, 3918),
            (809, 20, 4045),
            (999, 1000, 100),
            (640, 1, 64_000),
            (u128::from(u64::MAX), 100, u64::MAX),
            (1, 1 << 120, 0),
        ] {
            let area = Area::reduced(numerator, denominator);
            assert_eq!(area.rounded(), Acres::from_hundredths(hundredths), "{area}");
        }
    }

    #[test]
    #[should_panic(expected = "an area is too large to be rounded")]
    fn rounded_too_large() {
        Area::reduced(u128::from(u64::MAX), 1).rounded();
    }

    #[test]
    #[should_panic(expected = "a sum of areas has more than 128 bits")]
    fn sum_that_is_too_large() {
        let _ = Area::reduced(u128::MAX, 1) + Area::reduced(1, 1);
    }

    #[test]
    fn in_order() {
        let rising = [
            (0, 1),
            (1, u128::MAX),
            (1, 3),
            (2, 5),
            (1, 2),
            (3, 5),
            (1, 1),
            (809, 20),
            (811, 20),
            (u128::MAX - 1, 1),
            (u128::MAX, 1),
        ]
        .map(|(numerator, denominator)| Area::reduced(numerator, denominator));
        for (k, a) in rising.iter().enumerate() {
            for (m, b) in rising.iter().enumerate() {
                assert_eq!(a.cmp(b), k.cmp(&m), "{a} and {b}");
            }
        }
    }
}
