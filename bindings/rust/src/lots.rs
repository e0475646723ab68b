//! Lot tables: the lots of the approved plat, and the acreage that it returns for each.

use crate::acres::Acres;
use crate::answer::{Fault, OtherPlat};
use crate::area::Area;
use crate::date::Date;
use crate::ffi::{self, TRACTS_MOST};
use crate::land::Land;
use crate::lot_faults::{refused_lacking, refused_on_plat, refused_table, LACKING};
use crate::refused::{Refused, DESCRIPTION, LAND, LIST, LOT_TABLE};
use crate::report::{list_of, LotsReport};
use crate::text::accepted_bytes_by;
use crate::township::Township;
use std::error::Error;
use std::fmt;
use std::sync::Arc;

mod list;
mod many;
mod places;
mod readings;
mod text;

pub use self::places::PlatLot;

/// The acreage of a quarter-quarter section, in hundredths.
const STANDARD: u32 = 4_000;

/// A lot table: the lots of a township's approved plat, and the acreage that it returns for each.
///
/// By a lot table, each whole lot counts at its returned acreage, and other land at its nominal
/// area, 40 acres for each quarter-quarter section. No field notes are needed. To make a table, call
/// [`Lots::read`] or [`Lots::new`]. It is displayed as CSV, and parsed from it.
///
/// ```
/// use township::Lots;
///
/// let lots: Lots = "section,lot,acres\nT,2,N,3,W\n5,1,40.45\n5,2,40.55\n".parse()?;
/// assert_eq!(lots.acres("sec. 5, lots 1 and 2, S1/2NE1/4.")?.to_string(), "161.00");
///
/// let refused = lots.acres("sec. 5, lots 1 to 4.").unwrap_err();
/// assert_eq!((refused.number, refused.at), (94, 503));
/// assert_eq!(refused.sentence(), "the lot table has no record for lot 3 of section 5");
/// # Ok::<(), township::Refused>(())
/// ```
///
/// A table with the column `land` says where its lots lie. All other tables are for the standard lots.
///
/// ```
/// let table = b"section,lot,acres,land\nT,2,N,3,W\n14,1,38.50,NE1/4NE1/4\n14,,,NW1/4NE1/4\n";
/// let lots = township::Lots::read(table)?;
/// assert_eq!(lots.normal("sec. 14, NW1/4, lot 1.")?, "T. 2 N., R. 3 W.,\nsec. 14, lot 1, NW1/4.\n");
/// assert_eq!(lots.acres("sec. 14.")?.to_string(), "598.50");
/// # Ok::<(), township::Refused>(())
/// ```
///
/// # Panics
///
/// If memory runs out, these functions panic with the message `township: out of memory`.
#[derive(Clone, PartialEq, Eq, Hash)]
pub struct Lots {
    // Land on the plat of a table has the same.
    data: Arc<ffi::Lots>,
}

/// The error for land that has no acreage by a lot table.
#[derive(Clone, Debug, PartialEq, Eq, Hash)]
#[non_exhaustive]
pub enum NoLandAcres {
    /// The land is in another township than the table, or on another plat of it.
    OtherPlat(OtherPlat),
    /// The land contains a lot that the table lacks: a refusal with the number 94.
    Lacking(Refused),
}

impl Lots {
    /// Reads a lot table (CSV, at most 65,536 bytes; see `docs/LOTS-FORMAT.md`).
    ///
    /// A table may be as a spreadsheet saves it: with empty cells at the end of a row, with semicolons
    /// or tabs between the cells, or with 40.5 for 40.50 acres.
    ///
    /// # Errors
    ///
    /// Returns [`Refused`] if it is not a lot table.
    ///
    /// ```
    /// use township::Lots;
    ///
    /// let lots = Lots::read(b"section,lot,acres\nT,2,N,3,W\n5,1,40.45\n")?;
    /// assert_eq!(lots.township().to_string(), "T. 2 N., R. 3 W.");
    /// assert_eq!(lots.figure(5, 1).unwrap().to_string(), "40.45");
    /// assert_eq!(lots, Lots::read(b"section;lot;acres;;\nT;2;N;3;W\n5;1;40.45;;\n")?);
    ///
    /// let refused = Lots::read(b"section,lot,acres\nT,2,N,3,W\n14,1,40.00\n").unwrap_err();
    /// assert_eq!((refused.number, refused.at), (91, 3));
    /// assert_eq!(refused.to_string(), "lots:3: there is no lot 1: section 14 has no lots");
    /// # Ok::<(), township::Refused>(())
    /// ```
    pub fn read(table: &[u8]) -> Result<Lots, Refused> {
        let (answer, data) = ffi::lots_read(table);
        let fault = match answer.accepted() {
            Ok(_) => return Ok(Lots::of(data)),
            Err(fault) => fault,
        };
        if fault.refusal.number != ffi::REFUSAL_LOTS_TOO_LARGE {
            let plain = accepted_bytes_by(|room| ffi::lots_plain(table, room));
            if plain != table {
                return Lots::read_plain(&plain);
            }
        }
        Err(refused_table(fault, table, LOT_TABLE))
    }

    /// Reads the plain table of a lot table that is refused. Its lines are those of the table, but its
    /// bytes are not.
    fn read_plain(plain: &[u8]) -> Result<Lots, Refused> {
        let (answer, data) = ffi::lots_read(plain);
        match answer.accepted() {
            Ok(_) => Ok(Lots::of(data)),
            Err(fault) => Err(refused_table(fault, plain, LOT_TABLE).without_bytes()),
        }
    }

    /// Makes a lot table to fill in: each lot of the township has 40 acres.
    ///
    /// Replace each figure in its text with the one on the approved plat, and leave out the lots whose
    /// acreage isn't known.
    ///
    /// ```
    /// let text = township::Lots::new("T. 2 N., R. 3 W.".parse()?).to_string();
    /// assert!(text.starts_with("section,lot,acres\nT,2,N,3,W\n1,1,40.00\n1,2,40.00\n"));
    /// assert_eq!(text.lines().count(), 2 + 47);
    /// # Ok::<(), township::Refused>(())
    /// ```
    pub fn new(township: Township) -> Lots {
        let mut data = list::standard_table().clone();
        let count = list::lots_in(&data).count();
        data.figures[..count].fill(STANDARD);
        data.township = township.designation();
        Lots::of(data)
    }

    /// Makes a lot table of valid data.
    fn of(data: ffi::Lots) -> Lots {
        Lots {
            data: Arc::new(data),
        }
    }

    pub(crate) fn data(&self) -> &ffi::Lots {
        &self.data
    }

    /// Returns the date on which the plat was approved. It is `None` if the table does not say.
    pub fn date(&self) -> Option<Date> {
        Date::from_number(self.data.date)
    }

    /// Returns the township's designation.
    pub fn township(&self) -> Township {
        Township::from_designation(&self.data.township).expect("a lot table is of a township")
    }

    /// Returns the returned acreage of a lot, by section and lot. It is `None` if the table lacks the
    /// lot, or there is no such lot.
    pub fn figure(&self, section: u8, lot: u8) -> Option<Acres> {
        self.figures()
            .find(|&(its_section, its_lot, _)| (its_section, its_lot) == (section, lot))?
            .2
    }

    /// Returns an iterator over the lots of the plat: the section and the number of each, and its
    /// returned acreage, or `None` if the table lacks it. A regular township has 47 lots.
    ///
    /// ```
    /// let lots = township::Lots::read(b"section,lot,acres\nT,2,N,3,W\n5,1,40.45\n")?;
    /// assert_eq!(lots.figures().count(), 47);
    /// assert_eq!(lots.figures().filter_map(|(_, _, acres)| acres).count(), 1);
    /// # Ok::<(), township::Refused>(())
    /// ```
    pub fn figures(&self) -> impl Iterator<Item = (u8, u8, Option<Acres>)> + '_ {
        list::lots_in(&self.data).map(|(section, lot, hundredths)| {
            let acres = (hundredths > 0).then(|| Acres::from_hundredths(hundredths.into()));
            (section, lot, acres)
        })
    }

    /// Returns the acreage of the land described, rounded once to hundredths, half up.
    ///
    /// # Errors
    ///
    /// Returns [`Refused`], with a number from 41 to 44 or 61 to 68, if the description is refused, or
    /// with the number 94 if the land contains a lot that the table lacks: `at` is then 100 times the
    /// section's number, plus the lot's number.
    pub fn acres(&self, description: impl AsRef<[u8]>) -> Result<Acres, Refused> {
        let description = description.as_ref();
        self.acres_in(ffi::lots_acres(&self.data, description), description)
    }

    /// Returns the exact area of the land described, in acres. [`Lots::acres`] returns it rounded.
    ///
    /// # Errors
    ///
    /// The same as for [`Lots::acres`].
    pub fn area(&self, description: impl AsRef<[u8]>) -> Result<Area, Refused> {
        let description = description.as_ref();
        let (answer, area) = ffi::lots_area(&self.data, description);
        match answer.accepted() {
            Ok(_) => Ok(Area::from_fraction(area)),
            Err(fault) => Err(self.description_refused(fault, description)),
        }
    }

    /// Returns the acreage of land, rounded once to hundredths, half up.
    ///
    /// # Errors
    ///
    /// Returns [`NoLandAcres`] if the land is in another township, on another plat of it, or contains a
    /// lot that the table lacks.
    ///
    /// ```
    /// # use township::{Land, Lots};
    /// let lots = Lots::read(b"section,lot,acres\nT,2,N,3,W\n5,1,40.45\n")?;
    /// let land = Land::read(lots.township(), "sec. 5, lot 1; sec. 14.")?;
    /// assert_eq!(lots.land_acres(&land)?.to_string(), "680.45");
    /// # Ok::<(), Box<dyn std::error::Error>>(())
    /// ```
    pub fn land_acres(&self, land: &Land) -> Result<Acres, NoLandAcres> {
        self.check_lots(land)?;
        let answer = ffi::lots_land_acres(&self.data, land.data());
        let answer = answer.on_one_plat(land.township(), self.township())?;
        match answer.accepted() {
            Ok(answer) => Ok(Acres::from_hundredths(answer.hundredths)),
            Err(fault) => Err(self.land_refused(fault)),
        }
    }

    /// Returns the exact area of land, in acres. [`Lots::land_acres`] returns it rounded.
    ///
    /// # Errors
    ///
    /// The same as for [`Lots::land_acres`].
    pub fn land_area(&self, land: &Land) -> Result<Area, NoLandAcres> {
        self.check_lots(land)?;
        let (answer, area) = ffi::lots_land_area(&self.data, land.data());
        let answer = answer.on_one_plat(land.township(), self.township())?;
        match answer.accepted() {
            Ok(_) => Ok(Area::from_fraction(area)),
            Err(fault) => Err(self.land_refused(fault)),
        }
    }

    /// Returns the acreage of each tract of a list (CSV, at most 1,048,576 bytes; see
    /// `docs/TRACTS-FORMAT.md`), and that of all tracts together.
    ///
    /// # Errors
    ///
    /// Returns [`Refused`], with a number from 80 to 85, if the list is refused. If a tract's
    /// description is refused, the number is 83, and `inner` contains the description's own refusal;
    /// its number is 94 if the tract contains a lot that the table lacks.
    ///
    /// ```
    /// # use township::{Lots, Refusal};
    /// let lots = Lots::read(b"section,lot,acres\nT,2,N,3,W\n5,1,40.45\n5,2,40.55\n")?;
    /// let list = "name,description\nA,\"sec. 5, lot 1.\"\nB,\"sec. 5, lot 2, S1/2NE1/4.\"\n";
    /// let report = lots.report(list)?;
    /// assert_eq!(report.tracts[1].to_string(), "tract B: 120.55 acres");
    /// assert_eq!(report.total.to_string(), "161.00");
    ///
    /// let refused = lots.report("name,description\nA,\"sec. 5, lot 3.\"\n").unwrap_err();
    /// assert_eq!((refused.number, refused.at), (83, 2));
    /// assert_eq!(refused.inner, Some(Refusal { number: 94, at: 503 }));
    /// # Ok::<(), township::Refused>(())
    /// ```
    pub fn report(&self, list: impl AsRef<[u8]>) -> Result<LotsReport, Refused> {
        let list = list.as_ref();
        let mut tracts = vec![ffi::Tract::BLANK; TRACTS_MOST];
        match ffi::lots_report(&self.data, list, &mut tracts).accepted() {
            Ok(answer) => {
                let tracts = &tracts[..answer.text_length()];
                Ok(LotsReport::from_data(tracts, answer.hundredths))
            }
            Err(fault) => Err(self.list_refused(fault, list)),
        }
    }

    /// Returns the same for tracts, each a name and a description. There may be at most 1,000 tracts,
    /// and they must not overlap. A name is 1 to 64 bytes of printable ASCII, and each name must be
    /// unique.
    ///
    /// # Errors
    ///
    /// The same as for [`Lots::report`]. Locations refer to the list that the tracts make: the tract
    /// with index k is record k + 2.
    ///
    /// ```
    /// # let lots = township::Lots::read(b"section,lot,acres\nT,2,N,3,W\n5,1,40.45\n")?;
    /// let report = lots.report_of([("A", "sec. 5, lot 1."), ("B", "sec. 14.")])?;
    /// assert_eq!(report.total.to_string(), "680.45");
    /// # Ok::<(), township::Refused>(())
    /// ```
    pub fn report_of<N, D>(
        &self,
        tracts: impl IntoIterator<Item = (N, D)>,
    ) -> Result<LotsReport, Refused>
    where
        N: AsRef<[u8]>,
        D: AsRef<[u8]>,
    {
        self.report(list_of(tracts))
    }

    /// Returns the acreage in the answer to a description, or its refusal.
    fn acres_in(&self, answer: ffi::Answer, description: &[u8]) -> Result<Acres, Refused> {
        match answer.accepted() {
            Ok(answer) => Ok(Acres::from_hundredths(answer.hundredths)),
            Err(fault) => Err(self.description_refused(fault, description)),
        }
    }

    /// Returns an error for land of a table whose plat has the same date, but whose lots lie at other
    /// places. The library takes the two for one plat.
    fn check_lots(&self, land: &Land) -> Result<(), OtherPlat> {
        let of_plat = (land.township(), land.date()) == (self.township(), self.date());
        match land.lots() {
            Some(lots) if of_plat && self.has_land() && !self.has_lots_of(lots) => Err(OtherPlat {
                first: land.township(),
                second: self.township(),
            }),
            _ => Ok(()),
        }
    }

    /// Returns the error for land with a lot that the table lacks.
    fn land_refused(&self, fault: Fault) -> NoLandAcres {
        NoLandAcres::Lacking(refused_lacking(fault, &self.data, LAND))
    }

    /// Returns the refusal of a list of tracts, with its explanation.
    fn list_refused(&self, fault: Fault, list: &[u8]) -> Refused {
        Refused::explained(fault, |room| {
            ffi::lots_explain_list_parts(&self.data, list, LIST.as_bytes(), room)
        })
    }

    /// Returns the refusal of a description, with its explanation.
    fn description_refused(&self, fault: Fault, description: &[u8]) -> Refused {
        if fault.refusal.number == LACKING {
            return refused_lacking(fault, &self.data, DESCRIPTION);
        }
        refused_on_plat(fault, &self.data, description, DESCRIPTION)
    }
}

impl From<OtherPlat> for NoLandAcres {
    fn from(error: OtherPlat) -> NoLandAcres {
        NoLandAcres::OtherPlat(error)
    }
}

impl fmt::Display for NoLandAcres {
    fn fmt(&self, f: &mut fmt::Formatter<'_>) -> fmt::Result {
        match self {
            NoLandAcres::OtherPlat(error) => fmt::Display::fmt(error, f),
            NoLandAcres::Lacking(refused) => fmt::Display::fmt(refused, f),
        }
    }
}

impl Error for NoLandAcres {}
