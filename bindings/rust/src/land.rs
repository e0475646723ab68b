//! Land as a value: a set of places in a township.

use crate::answer::OtherPlat;
use crate::answer::{out_of_memory, Verdict};
use crate::date::Date;
use crate::ffi::{self, PLACES_ACROSS, SECTIONS};
use crate::lots::Lots;
use crate::part::Part;
use crate::refused::{Refused, DESCRIPTION};
use crate::text::accepted_text_by;
use crate::township::Township;
use std::cmp::Ordering;
use std::error::Error;
use std::fmt;
use std::hash::{Hash, Hasher};

mod combining;
mod text;

pub(crate) use self::text::shortened;

/// The places of a township: 32 rows for each section, in the order of their numbers.
///
/// The rows of a section are in order from the south. In a row, bit `k`, counted from the lowest, is
/// the place in column `k` from the east.
pub type Rows = [[u32; PLACES_ACROSS]; SECTIONS];

/// The land that a description names, as a value: a set of places in a township.
///
/// To make land, call [`Land::read`] with a township and a description, [`Plat::land`] or
/// [`Lots::land`] with a description, or [`Land::from_rows`]. Land does not depend on field notes;
/// only its acreage does.
///
/// Land of a lot table is on the plat of that table: with its date, and with its lots if the table
/// says where they lie. Two lands are equal if they are the same places on the same plat of the same
/// township. Land on different plats can't be combined or compared.
///
/// Land can be combined and compared like a set, exactly: `|`, `&`, `-`, and `^` are the union, the
/// intersection, the difference, and the symmetric difference, and `a <= b` if `b` contains all of
/// `a`. It is displayed as its canonical text, which is empty for empty land, and parsed from it.
///
/// ```
/// # let notes = include_bytes!(concat!(env!("TOWNSHIP_FILES"), "/samples/b1.csv"));
/// # let plat = township::Plat::read(notes)?;
/// let lease = plat.land("sec. 14, all.")? - plat.land("sec. 14, NE1/4NE1/4.")?;
/// let deed = plat.land("sec. 14, NE1/4; sec. 15, all.")?;
/// let both = &lease & &deed;
/// assert_eq!(
///     both.to_string(),
///     "T. 2 N., R. 3 W.,\nsec. 14, NW1/4NE1/4, S1/2NE1/4.\n"
/// );
/// assert_eq!(plat.land_acres(&both)?.to_string(), "120.00");
/// assert!(both <= lease && both < deed);
/// # Ok::<(), Box<dyn std::error::Error>>(())
/// ```
///
/// # Panics
///
/// The operators panic for land in two different townships, or on two different plats of one;
/// [`Land::union`], [`Land::intersection`], and [`Land::difference`] return an error. If memory runs
/// out, functions panic with the message `township: out of memory`.
///
/// [`Plat::land`]: crate::Plat::land
#[derive(Clone)]
#[cfg_attr(feature = "serde", derive(serde::Serialize, serde::Deserialize))]
#[cfg_attr(
    feature = "serde",
    serde(try_from = "crate::data::LandData", into = "crate::data::LandData")
)]
pub struct Land {
    data: Box<ffi::Land>,
    /// The lot table that says where the lots of the land lie, unless they are the standard lots.
    lots: Option<Lots>,
}

/// How one land compares to another.
#[derive(Clone, Copy, Debug, PartialEq, Eq, Hash)]
#[cfg_attr(feature = "serde", derive(serde::Serialize, serde::Deserialize))]
pub enum Comparison {
    /// They are the same land.
    Equal,
    /// The first contains all of the second, and more.
    Contains,
    /// The second contains all of the first, and more.
    IsContained,
    /// They share land, and each contains land that the other does not.
    Overlaps,
    /// They share no land, and neither is empty; or they are in different townships.
    Disjoint,
    /// They are on two different plats of one township: it isn't known what land they share.
    OtherPlat,
}

/// The error for places that are not land, because they contain part of a lot; see
/// [`Land::from_rows`].
#[derive(Clone, Copy, Debug, PartialEq, Eq, Hash)]
pub struct NoLand;

impl Land {
    /// Makes the land that a description names in a township.
    ///
    /// # Errors
    ///
    /// Returns [`Refused`], with a number from 41 to 67, if the description is refused.
    ///
    /// ```
    /// use township::{Land, Township};
    ///
    /// let township: Township = "T. 2 N., R. 3 W.".parse()?;
    /// let land = Land::read(township, "sec. 14, NE1/4, NW1/4.")?;
    /// assert_eq!(land.to_string(), "T. 2 N., R. 3 W.,\nsec. 14, N1/2.\n");
    /// assert_eq!(Land::read(township, "sec. 37.").unwrap_err().number, 62);
    /// # Ok::<(), Box<dyn std::error::Error>>(())
    /// ```
    pub fn read(township: Township, description: impl AsRef<[u8]>) -> Result<Land, Refused> {
        Land::read_on(&township.nominal_plat(), township, description.as_ref())
    }

    /// Makes the land of a description, which is explained on a plat of the township if it is refused.
    pub(crate) fn read_on(
        plat: &ffi::Plat,
        township: Township,
        description: &[u8],
    ) -> Result<Land, Refused> {
        Land::read_as(DESCRIPTION, plat, township, description)
    }

    /// The same. An explanation calls the description by this name.
    pub(crate) fn read_as(
        name: &str,
        plat: &ffi::Plat,
        township: Township,
        description: &[u8],
    ) -> Result<Land, Refused> {
        let (answer, data) = ffi::land_read(&township.designation(), description);
        match answer.accepted() {
            Ok(_) => Ok(Land::of(data, None)),
            Err(fault) => Err(Refused::explained(fault, |room| {
                ffi::explain_description_parts(plat, description, name.as_bytes(), room)
            })),
        }
    }

    /// Makes land from its places.
    ///
    /// # Errors
    ///
    /// Returns [`NoLand`] if the places contain part of a lot.
    ///
    /// ```
    /// use township::{Land, NoLand};
    ///
    /// let township = "T. 2 N., R. 3 W.".parse()?;
    /// let mut rows = [[0; 32]; 36];
    /// rows[14 - 1][16..].fill(0xFFFF);
    /// assert_eq!(Land::from_rows(township, rows), Ok(Land::read(township, "sec. 14, NE1/4.")?));
    /// rows[5 - 1] = [1; 32];
    /// assert_eq!(Land::from_rows(township, rows), Err(NoLand));
    /// # Ok::<(), Box<dyn std::error::Error>>(())
    /// ```
    pub fn from_rows(township: Township, rows: Rows) -> Result<Land, NoLand> {
        let data = ffi::Land {
            rows,
            township: township.designation(),
            ..ffi::Land::BLANK
        };
        // Every call that takes land validates it.
        match ffi::land_compare(&data, &data).0.verdict() {
            Verdict::NoLand => Err(NoLand),
            Verdict::NoMemory => out_of_memory(),
            _ => Ok(Land::of(data, None)),
        }
    }

    /// Makes land of valid data. The lot table says where its lots lie.
    pub(crate) fn of(data: ffi::Land, lots: Option<Lots>) -> Land {
        Land {
            data: Box::new(data),
            lots,
        }
    }

    /// Makes land from its places on a plat of this date with the standard lots.
    #[cfg(feature = "serde")]
    pub(crate) fn from_rows_of(
        township: Township,
        date: Option<Date>,
        rows: Rows,
    ) -> Result<Land, NoLand> {
        let mut land = Land::from_rows(township, rows)?;
        land.data.date = date.map_or(0, Date::number);
        Ok(land)
    }

    /// Makes land from its places on the plat of a lot table that says where its lots lie.
    #[cfg(feature = "serde")]
    pub(crate) fn from_rows_on(lots: &Lots, rows: Rows) -> Result<Land, NoLand> {
        let data = ffi::Land {
            rows,
            township: lots.data().township,
            date: lots.data().date,
            own_lots: 1,
        };
        // Only a call that takes the table checks that the land has whole lots.
        match ffi::lots_land_text(lots.data(), &data, &mut []).verdict() {
            Verdict::NoLand => Err(NoLand),
            Verdict::NoMemory => out_of_memory(),
            _ => Ok(Land::of(data, Some(lots.clone()))),
        }
    }

    /// Returns the land without any places in a township.
    ///
    /// ```
    /// let nothing = township::Land::empty("T. 2 N., R. 3 W.".parse()?);
    /// assert!(nothing.is_empty() && nothing.to_string().is_empty());
    /// # Ok::<(), township::Refused>(())
    /// ```
    pub fn empty(township: Township) -> Land {
        let data = ffi::Land {
            township: township.designation(),
            ..ffi::Land::BLANK
        };
        Land::of(data, None)
    }

    /// Returns the township's designation.
    pub fn township(&self) -> Township {
        Township::from_designation(&self.data.township).expect("land is in a township")
    }

    /// Returns the date of the plat that the land is on: that of the lot table by which it was read.
    pub fn date(&self) -> Option<Date> {
        Date::from_number(self.data.date)
    }

    /// Returns the lot table that says where the lots of the land lie. It is `None` for the standard
    /// lots.
    ///
    /// ```
    /// let lots = township::Lots::read(b"section,lot,acres,land\nT,2,N,3,W\n14,1,38.50,NE1/4NE1/4\n")?;
    /// assert_eq!(lots.land("sec. 14, lot 1.")?.lots(), Some(&lots));
    /// assert_eq!(township::Land::read(lots.township(), "sec. 14.")?.lots(), None);
    /// # Ok::<(), township::Refused>(())
    /// ```
    pub fn lots(&self) -> Option<&Lots> {
        self.lots.as_ref()
    }

    /// Returns the places.
    ///
    /// ```
    /// let township = "T. 2 N., R. 3 W.".parse()?;
    /// let land = township::Land::read(township, "sec. 14, NE1/4.")?;
    /// assert_eq!(land.rows()[14 - 1][15..18], [0, 0xFFFF, 0xFFFF]);
    /// # Ok::<(), Box<dyn std::error::Error>>(())
    /// ```
    pub fn rows(&self) -> &Rows {
        &self.data.rows
    }

    /// Returns whether there is no land.
    pub fn is_empty(&self) -> bool {
        self.data.rows.iter().flatten().all(|&row| row == 0)
    }

    /// Returns the parts that the canonical text names, in its order. A lot that lies in several
    /// aliquot parts has a part for each.
    ///
    /// ```
    /// let township = "T. 2 N., R. 3 W.".parse()?;
    /// let parts = township::Land::read(township, "sec. 5, lot 1; sec. 14, W1/2.")?.parts();
    /// assert_eq!((parts[0].section, parts[0].lot), (5, Some(1)));
    /// assert_eq!((parts[1].column, parts[1].columns), (16, 16));
    /// # Ok::<(), Box<dyn std::error::Error>>(())
    /// ```
    pub fn parts(&self) -> Vec<Part> {
        match &self.lots {
            None => Part::all_of(&self.data),
            Some(lots) => lots.parts_of(self),
        }
    }

    /// Returns an iterator over the sections that have land: the number of each, and the land in it.
    ///
    /// ```
    /// let township = "T. 2 N., R. 3 W.".parse()?;
    /// let land = township::Land::read(township, "sec. 14, N1/2; sec. 5, lot 1.")?;
    /// let sections: Vec<_> = land.sections().collect();
    /// assert_eq!(sections[0], (5, township::Land::read(township, "sec. 5, lot 1.")?));
    /// assert_eq!(sections[1].0, 14);
    /// # Ok::<(), Box<dyn std::error::Error>>(())
    /// ```
    pub fn sections(&self) -> impl Iterator<Item = (u8, Land)> + '_ {
        let has_land = |&index: &usize| self.data.rows[index] != [0; PLACES_ACROSS];
        (0..SECTIONS).filter(has_land).map(|index| {
            let mut data = ffi::Land {
                rows: [[0; PLACES_ACROSS]; SECTIONS],
                ..*self.data
            };
            data.rows[index] = self.data.rows[index];
            (index as u8 + 1, Land::of(data, self.lots.clone()))
        })
    }

    /// Returns how this land compares to another.
    ///
    /// ```
    /// use township::{Comparison, Land};
    ///
    /// let township = "T. 2 N., R. 3 W.".parse()?;
    /// let half = Land::read(township, "sec. 14, N1/2.")?;
    /// assert_eq!(half.compare(&Land::read(township, "sec. 14.")?), Comparison::IsContained);
    /// assert_eq!(half.compare(&Land::read(township, "sec. 14, E1/2.")?), Comparison::Overlaps);
    /// # Ok::<(), Box<dyn std::error::Error>>(())
    /// ```
    pub fn compare(&self, other: &Land) -> Comparison {
        let (answer, comparison) = ffi::land_compare(&self.data, &other.data);
        match answer.verdict() {
            Verdict::OtherTownship => return Comparison::Disjoint,
            Verdict::OtherPlat => return Comparison::OtherPlat,
            _ if self.check_lots(other).is_err() => return Comparison::OtherPlat,
            _ => {}
        }
        match answer.accepted() {
            Ok(_) => Comparison::from_code(comparison),
            Err(fault) => unreachable!("land can be compared, and {}", fault.refusal),
        }
    }

    /// Returns whether this land contains all of another, which is in the same township. Panics if the
    /// two are on different plats of it.
    pub fn contains(&self, other: &Land) -> bool {
        matches!(
            self.compared(other),
            Comparison::Equal | Comparison::Contains
        )
    }

    /// Returns whether the two share land, also if they are the same or one contains the other. Panics
    /// if they are on different plats of a township.
    pub fn overlaps(&self, other: &Land) -> bool {
        !self.is_disjoint(other)
    }

    /// Returns whether the two share no land. Panics if they are on different plats of a township.
    pub fn is_disjoint(&self, other: &Land) -> bool {
        self.is_empty() || other.is_empty() || self.compared(other) == Comparison::Disjoint
    }

    /// Returns how this land compares to another. Panics if they are on different plats of a township.
    fn compared(&self, other: &Land) -> Comparison {
        match self.compare(other) {
            Comparison::OtherPlat => {
                let (first, second) = (self.township(), other.township());
                panic!("{}", OtherPlat { first, second })
            }
            comparison => comparison,
        }
    }

    /// Returns an error if the lots of the two, whose plats have the same date, lie at different places.
    fn check_lots(&self, other: &Land) -> Result<(), OtherPlat> {
        match (&self.lots, &other.lots) {
            (Some(mine), Some(others)) if !mine.has_lots_of(others) => Err(OtherPlat {
                first: self.township(),
                second: other.township(),
            }),
            _ => Ok(()),
        }
    }

    pub(crate) fn data(&self) -> &ffi::Land {
        &self.data
    }

    /// Returns the canonical text.
    fn text(&self) -> String {
        accepted_text_by(|room| match &self.lots {
            None => ffi::land_text(&self.data, room),
            Some(lots) => ffi::lots_land_text(lots.data(), &self.data, room),
        })
    }
}

impl Comparison {
    fn from_code(code: u32) -> Comparison {
        match code {
            ffi::EQUAL => Comparison::Equal,
            ffi::CONTAINS => Comparison::Contains,
            ffi::IS_CONTAINED => Comparison::IsContained,
            ffi::OVERLAPS => Comparison::Overlaps,
            ffi::DISJOINT => Comparison::Disjoint,
            unknown => panic!("the library answered with comparison {unknown}, which is unknown"),
        }
    }
}

impl PartialEq for Land {
    fn eq(&self, other: &Land) -> bool {
        self.data == other.data
    }
}

impl Eq for Land {}

impl Hash for Land {
    fn hash<H: Hasher>(&self, state: &mut H) {
        self.data.hash(state);
    }
}

impl PartialOrd for Land {
    /// Less is contained in more. Land in different townships, or on different plats of one, cannot be
    /// compared.
    fn partial_cmp(&self, other: &Land) -> Option<Ordering> {
        match self.compare(other) {
            Comparison::Equal => Some(Ordering::Equal),
            Comparison::Contains => Some(Ordering::Greater),
            Comparison::IsContained => Some(Ordering::Less),
            Comparison::Overlaps | Comparison::Disjoint | Comparison::OtherPlat => None,
        }
    }
}

impl fmt::Display for NoLand {
    fn fmt(&self, f: &mut fmt::Formatter<'_>) -> fmt::Result {
        f.pad("these places contain part of a lot")
    }
}

impl Error for NoLand {}
