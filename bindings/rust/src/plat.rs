//! Plats.

use crate::answer::{out_of_memory, Verdict};
use crate::ffi;
use crate::refused::{Refused, NOTES};
use crate::text::accepted_text_by;
use crate::township::Township;
use std::error::Error;
use std::fmt;
use std::str::FromStr;

mod answers;
mod land;
mod lists;

pub(crate) use self::answers::in_a_row;
pub(crate) use self::lists::USUAL_OVERLAPS;

/// The number of section lines in a township.
pub const LINES: usize = ffi::LINES;

/// The plat of a township: the result of protracting its field notes, and the basis of every
/// acreage.
///
/// To make a plat, call [`Plat::read`] with field notes, or [`Plat::from_parts`]. A plat is
/// immutable, two plats with the same parts are equal, and several threads can use a plat at once.
///
/// A description can be a string or any bytes; a string is read as UTF-8. If a description is
/// refused, methods return [`Refused`].
///
/// # Panics
///
/// If memory runs out, these functions panic with the message `township: out of memory`.
#[derive(Clone, PartialEq, Eq, Hash)]
#[cfg_attr(feature = "serde", derive(serde::Serialize, serde::Deserialize))]
#[cfg_attr(
    feature = "serde",
    serde(try_from = "crate::data::PlatData", into = "crate::data::PlatData")
)]
pub struct Plat {
    parts: ffi::Plat,
}

/// The error for closing quarters that do not make a plat; see [`Plat::from_parts`].
#[derive(Clone, Copy, Debug, PartialEq, Eq, Hash)]
pub struct NoPlat;

impl Plat {
    /// Makes the plat of field notes (CSV, at most 65,536 bytes; see `docs/NOTES-FORMAT.md`).
    ///
    /// # Errors
    ///
    /// Returns [`Refused`], with a number from 1 to 23, if the notes do not make a plat.
    ///
    /// ```
    /// use township::Plat;
    ///
    /// let notes = include_bytes!(concat!(env!("TOWNSHIP_FILES"), "/samples/b1.csv"));
    /// let plat = Plat::read(notes)?;
    /// assert_eq!(plat.township().to_string(), "T. 2 N., R. 3 W.");
    ///
    /// let refused = Plat::read(b"").unwrap_err();
    /// assert_eq!((refused.number, refused.at), (2, 1));
    /// # Ok::<(), township::Refused>(())
    /// ```
    pub fn read(notes: &[u8]) -> Result<Plat, Refused> {
        let (answer, parts) = ffi::read(notes);
        match answer.accepted() {
            Ok(_) => Ok(Plat { parts }),
            Err(fault) => Err(Refused::explained(fault, |room| {
                ffi::explain_notes_parts(notes, NOTES.as_bytes(), room)
            })),
        }
    }

    /// Makes a plat from its parts: the township, and the last quarter mile of each section line.
    ///
    /// The quarter miles are in thousandths of a chain, in the order of the lines' indexes (see the
    /// drawing in `docs/NOTES-FORMAT.md`).
    ///
    /// # Errors
    ///
    /// Returns [`NoPlat`] unless the quarter mile is 5,000 to 25,000 for each closing line (0 to 6
    /// and 47, 53, 59, 65, 71, 77, and 83) and 20,000 for every other line.
    ///
    /// ```
    /// use township::{EastWest, NorthSouth, Plat, Township, LINES};
    ///
    /// let township = Township::new(2, NorthSouth::North, 3, EastWest::West).unwrap();
    /// let even = Plat::from_parts(township, [20_000; LINES])?;
    /// assert!(even.print().ends_with("township total 23040.00\n"));
    /// # Ok::<(), township::NoPlat>(())
    /// ```
    pub fn from_parts(township: Township, closing_quarters: [u32; LINES]) -> Result<Plat, NoPlat> {
        let parts = township.parts(closing_quarters);
        // Every call that takes a plat validates it. This call has little else to do.
        match ffi::acres(&parts, b"", ffi::EXACT).verdict() {
            Verdict::NoPlat => Err(NoPlat),
            Verdict::NoMemory => out_of_memory(),
            _ => Ok(Plat { parts }),
        }
    }

    /// Returns field notes (CSV) from which [`Plat::read`] makes this plat again.
    ///
    /// Each half mile in them is 40 chains long, except for the second ones of closing lines.
    ///
    /// ```
    /// # let notes = include_bytes!(concat!(env!("TOWNSHIP_FILES"), "/samples/b1.csv"));
    /// # let plat = township::Plat::read(notes)?;
    /// let written = plat.write_notes();
    /// assert!(written.starts_with("line,between,and,quarter,corner\nT,2,N,3,W\n"));
    /// assert_eq!(township::Plat::read(written.as_bytes())?, plat);
    /// # Ok::<(), township::Refused>(())
    /// ```
    pub fn write_notes(&self) -> String {
        accepted_text_by(|room| ffi::write_notes(&self.parts, room))
    }

    /// Returns the township's designation.
    pub fn township(&self) -> Township {
        Township::from_parts(&self.parts).expect("a plat has a township")
    }

    /// Returns the last quarter mile of each section line, by line index, in thousandths of a
    /// chain.
    ///
    /// ```
    /// # let notes = include_bytes!(concat!(env!("TOWNSHIP_FILES"), "/samples/b1.csv"));
    /// # let plat = township::Plat::read(notes)?;
    /// assert_eq!(plat.closing_quarters()[3..7], [20_000, 20_200, 20_400, 20_800]);
    /// # Ok::<(), township::Refused>(())
    /// ```
    pub fn closing_quarters(&self) -> &[u32; LINES] {
        &self.parts.closing_quarters
    }
}

impl TryFrom<&[u8]> for Plat {
    type Error = Refused;

    /// Makes the plat of field notes: [`Plat::read`].
    fn try_from(notes: &[u8]) -> Result<Plat, Refused> {
        Plat::read(notes)
    }
}

impl FromStr for Plat {
    type Err = Refused;

    /// Makes the plat of field notes: [`Plat::read`].
    fn from_str(notes: &str) -> Result<Plat, Refused> {
        Plat::read(notes.as_bytes())
    }
}

impl TryFrom<(Township, [u32; LINES])> for Plat {
    type Error = NoPlat;

    /// Makes a plat from its parts: [`Plat::from_parts`].
    fn try_from(parts: (Township, [u32; LINES])) -> Result<Plat, NoPlat> {
        Plat::from_parts(parts.0, parts.1)
    }
}

impl fmt::Debug for Plat {
    fn fmt(&self, f: &mut fmt::Formatter<'_>) -> fmt::Result {
        f.debug_struct("Plat")
            .field("township", &self.township())
            .field("closing_quarters", self.closing_quarters())
            .finish()
    }
}

impl fmt::Display for NoPlat {
    fn fmt(&self, f: &mut fmt::Formatter<'_>) -> fmt::Result {
        f.pad("no plat has these closing quarters")
    }
}

impl Error for NoPlat {}
