//! The dates on which plats were approved.

use crate::ffi;
use crate::parse::ParseError;
use std::fmt;
use std::str::FromStr;

/// The date on which a plat was approved, displayed as `1912-03-04`.
///
/// ```
/// let lots = township::Lots::read(b"section,lot,acres\nT,2,N,3,W,1912-03-04\n5,1,40.45\n")?;
/// let date = lots.date().unwrap();
/// assert_eq!((date.year, date.month, date.day), (1912, 3, 4));
/// assert_eq!(date.to_string(), "1912-03-04");
/// # Ok::<(), township::Refused>(())
/// ```
#[derive(Clone, Copy, Debug, PartialEq, Eq, PartialOrd, Ord, Hash)]
#[non_exhaustive]
pub struct Date {
    /// The year, 1 to 9999.
    pub year: u16,
    /// The month, 1 to 12.
    pub month: u8,
    /// The day of the month, from 1 on.
    pub day: u8,
}

impl Date {
    /// Returns the date of a number as in the library's data: 0 is none.
    pub(crate) fn from_number(number: u32) -> Option<Date> {
        let part = |number: u32| u8::try_from(number % 100).expect("it has two digits");
        (number > 0).then(|| Date {
            year: u16::try_from(number / 10_000).expect("a year has four digits"),
            month: part(number / 100),
            day: part(number),
        })
    }

    /// Returns the number of this date.
    #[cfg(feature = "serde")]
    pub(crate) fn number(self) -> u32 {
        10_000 * u32::from(self.year) + 100 * u32::from(self.month) + u32::from(self.day)
    }
}

impl FromStr for Date {
    type Err = ParseError;

    /// Parses a date as `1912-03-04`: a day that there is.
    ///
    /// ```
    /// use township::Date;
    ///
    /// let date: Date = "1912-02-29".parse().unwrap();
    /// assert_eq!((date.year, date.month, date.day), (1912, 2, 29));
    /// assert!("1913-02-29".parse::<Date>().is_err());
    /// ```
    fn from_str(text: &str) -> Result<Date, ParseError> {
        // The library knows the calendar.
        let table = format!("section,lot,acres\nT,1,N,1,E,{text}\n");
        let (answer, lots) = ffi::lots_read(table.as_bytes());
        let date = answer.accepted().ok().and(Date::from_number(lots.date));
        date.filter(|date| date.to_string() == text)
            .ok_or(ParseError::not("a date, such as 1912-03-04"))
    }
}

impl fmt::Display for Date {
    fn fmt(&self, f: &mut fmt::Formatter<'_>) -> fmt::Result {
        let Date { year, month, day } = self;
        write!(f, "{year:04}-{month:02}-{day:02}")
    }
}
