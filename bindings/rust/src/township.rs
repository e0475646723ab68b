//! The designation of a township.

use crate::ffi::{self, Designation};
use crate::parse::ParseError;
use crate::plat::LINES;
use crate::refused::Refused;
use crate::text::accepted_text_by;
use crate::township_faults::refused_township;
use std::fmt;
use std::str::FromStr;

/// The largest township or range number.
const MOST: u8 = 99;

/// A quarter mile, in thousandths of a chain.
pub(crate) const NOMINAL_QUARTER: u32 = 20_000;

/// The side of the base line on which a township lies. It is displayed as one letter.
#[derive(Clone, Copy, Debug, PartialEq, Eq, PartialOrd, Ord, Hash)]
pub enum NorthSouth {
    /// North of the base line: `N`.
    North,
    /// South of the base line: `S`.
    South,
}

/// The side of the principal meridian on which a range lies. It is displayed as one letter.
#[derive(Clone, Copy, Debug, PartialEq, Eq, PartialOrd, Ord, Hash)]
pub enum EastWest {
    /// East of the principal meridian: `E`.
    East,
    /// West of the principal meridian: `W`.
    West,
}

/// A township's designation, without its principal meridian. It is displayed as in the heading of a
/// description, and parsed from any of its spellings. Townships are ordered by their number and its side, then
/// by their range and its side.
///
/// ```
/// use township::{EastWest, NorthSouth, Township};
///
/// let township = Township::new(2, NorthSouth::North, 3, EastWest::West).unwrap();
/// assert_eq!(township.to_string(), "T. 2 N., R. 3 W.");
/// assert_eq!("T. 2 N., R. 3 W.".parse(), Ok(township));
/// ```
#[derive(Clone, Copy, Debug, PartialEq, Eq, PartialOrd, Ord, Hash)]
pub struct Township {
    number: u8,
    north_south: NorthSouth,
    range: u8,
    east_west: EastWest,
}

impl Township {
    /// Makes a designation. Returns `None` if a number is not 1 to 99.
    ///
    /// ```
    /// use township::{EastWest, NorthSouth, Township};
    ///
    /// assert!(Township::new(99, NorthSouth::South, 1, EastWest::East).is_some());
    /// assert_eq!(Township::new(100, NorthSouth::South, 1, EastWest::East), None);
    /// ```
    pub fn new(
        number: u8,
        north_south: NorthSouth,
        range: u8,
        east_west: EastWest,
    ) -> Option<Township> {
        let is_one = |number| (1..=MOST).contains(&number);
        (is_one(number) && is_one(range)).then_some(Township {
            number,
            north_south,
            range,
            east_west,
        })
    }

    /// Returns the township number, 1 to 99.
    pub fn number(self) -> u8 {
        self.number
    }

    /// Returns the side of the base line on which the township lies.
    pub fn north_south(self) -> NorthSouth {
        self.north_south
    }

    /// Returns the range number, 1 to 99.
    pub fn range(self) -> u8 {
        self.range
    }

    /// Returns the side of the principal meridian on which the range lies.
    pub fn east_west(self) -> EastWest {
        self.east_west
    }

    /// Returns the township of a plat's parts, if they are valid.
    pub(crate) fn from_parts(parts: &ffi::Plat) -> Option<Township> {
        Township::from_designation(&Designation {
            number: parts.number,
            north_south: parts.north_south,
            range: parts.range,
            east_west: parts.east_west,
        })
    }

    /// Returns the township of a designation's parts, if they are valid.
    pub(crate) fn from_designation(parts: &Designation) -> Option<Township> {
        Township::new(
            parts.number,
            NorthSouth::from_code(parts.north_south)?,
            parts.range,
            EastWest::from_code(parts.east_west)?,
        )
    }

    /// Returns the parts of the designation.
    pub(crate) fn designation(self) -> Designation {
        Designation {
            number: self.number,
            north_south: self.north_south.code(),
            range: self.range,
            east_west: self.east_west.code(),
        }
    }

    /// Returns the parts of a plat with these closing quarters, which may or may not be valid.
    pub(crate) fn parts(self, closing_quarters: [u32; LINES]) -> ffi::Plat {
        ffi::Plat {
            closing_quarters,
            number: self.number,
            north_south: self.north_south.code(),
            range: self.range,
            east_west: self.east_west.code(),
        }
    }

    /// Returns the plat of the township in which every half mile is 40 chains long. A description is
    /// refused on it if it is refused on any other plat of the township, and for the same fault.
    pub(crate) fn nominal_plat(self) -> ffi::Plat {
        self.parts([NOMINAL_QUARTER; LINES])
    }
}

impl NorthSouth {
    fn from_code(code: u8) -> Option<NorthSouth> {
        match code {
            ffi::NORTH => Some(NorthSouth::North),
            ffi::SOUTH => Some(NorthSouth::South),
            _ => None,
        }
    }

    /// Returns the library's code for the side.
    pub(crate) fn code(self) -> u8 {
        match self {
            NorthSouth::North => ffi::NORTH,
            NorthSouth::South => ffi::SOUTH,
        }
    }
}

impl EastWest {
    fn from_code(code: u8) -> Option<EastWest> {
        match code {
            ffi::EAST => Some(EastWest::East),
            ffi::WEST => Some(EastWest::West),
            _ => None,
        }
    }

    /// Returns the library's code for the side.
    pub(crate) fn code(self) -> u8 {
        match self {
            EastWest::East => ffi::EAST,
            EastWest::West => ffi::WEST,
        }
    }
}

impl FromStr for NorthSouth {
    type Err = ParseError;

    /// Parses `N` or `S`.
    fn from_str(letter: &str) -> Result<NorthSouth, ParseError> {
        match letter {
            "N" => Ok(NorthSouth::North),
            "S" => Ok(NorthSouth::South),
            _ => Err(ParseError::not("a side of the base line, N or S")),
        }
    }
}

impl FromStr for EastWest {
    type Err = ParseError;

    /// Parses `E` or `W`.
    fn from_str(letter: &str) -> Result<EastWest, ParseError> {
        match letter {
            "E" => Ok(EastWest::East),
            "W" => Ok(EastWest::West),
            _ => Err(ParseError::not("a side of the principal meridian, E or W")),
        }
    }
}

impl FromStr for Township {
    type Err = Refused;

    /// Parses a township in any of the spellings that `docs/TOWNSHIPS.md` lists.
    ///
    /// ```
    /// use township::Township;
    ///
    /// let township: Township = "2N-3W".parse()?;
    /// for text in ["T2N R3W", "Township Two North, Range Three West", "0020N 0030W"] {
    ///     assert_eq!(text.parse::<Township>()?, township);
    /// }
    /// let refused = "T. 2 N., R. 3 W., sec. 14".parse::<Township>().unwrap_err();
    /// assert_eq!((refused.number, refused.at), (35, 18));
    /// assert_eq!(
    ///     refused.to_string(),
    ///     "township:1:19: unexpected `sec. 14`; expected nothing after the township"
    /// );
    /// # Ok::<(), township::Refused>(())
    /// ```
    fn from_str(text: &str) -> Result<Township, Refused> {
        let (answer, parts) = ffi::designation_read(text.as_bytes());
        match answer.accepted() {
            Ok(_) => Ok(Township::from_designation(&parts).expect("what is read is a township")),
            Err(fault) => Err(refused_township(fault, text)),
        }
    }
}

impl fmt::Display for NorthSouth {
    fn fmt(&self, f: &mut fmt::Formatter<'_>) -> fmt::Result {
        f.pad(match self {
            NorthSouth::North => "N",
            NorthSouth::South => "S",
        })
    }
}

impl fmt::Display for EastWest {
    fn fmt(&self, f: &mut fmt::Formatter<'_>) -> fmt::Result {
        f.pad(match self {
            EastWest::East => "E",
            EastWest::West => "W",
        })
    }
}

impl fmt::Display for Township {
    /// Writes the designation as in the heading of a description: `T. 2 N., R. 3 W.`.
    fn fmt(&self, f: &mut fmt::Formatter<'_>) -> fmt::Result {
        let designation = self.designation();
        f.write_str(&accepted_text_by(|room| {
            ffi::designation_text(&designation, room)
        }))
    }
}
