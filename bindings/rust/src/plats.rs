//! The plats and lot tables of several townships, and the acreage of land in all of them.

use crate::account::Account;
use crate::acres::Acres;
use crate::answer::OtherPlat;
use crate::area::Area;
use crate::date::Date;
use crate::land::Land;
use crate::lands::Lands;
use crate::lots::{Lots, NoLandAcres};
use crate::plat::Plat;
use crate::refused::Refused;
use crate::township::Township;
use std::collections::BTreeMap;
use std::error::Error;
use std::fmt;

mod folder;
mod report;

pub use self::folder::OpenError;
pub use self::report::{PlatsReport, PlatsTract};

/// What acreage in a township is computed by: the plat of field notes, or a lot table.
#[derive(Clone, Debug, PartialEq, Eq, Hash)]
#[cfg_attr(feature = "serde", derive(serde::Serialize, serde::Deserialize))]
// There are few of them, so it doesn't matter that a plat takes 340 bytes.
#[allow(clippy::large_enum_variant)]
pub enum Basis {
    /// The plat that field notes make.
    Plat(Plat),
    /// The acreage that the approved plat returns for the lots.
    Lots(Lots),
}

/// The plats and lot tables of several townships on one principal meridian.
///
/// To make them, call [`Plats::new`] with plats and lot tables, or [`Plats::open`] with a folder. A
/// township can have a plat and a lot table: the lot table then controls, as the acreage that the approved
/// plat returns. Of lot tables with different dates, the newest one does; a table without a date counts as
/// older than any other.
///
/// The acreage of a text is the exact sum of the exact areas in all its townships, rounded once. The
/// meridian is not part of a text.
///
/// ```
/// # let notes = include_bytes!(concat!(env!("TOWNSHIP_FILES"), "/samples/b1.csv"));
/// use township::{Basis, Lots, Plat, Plats};
///
/// let plat = Plat::read(notes)?;
/// let table: Lots = "section,lot,acres\nT,3,N,3,W\n31,1,38.97\n31,2,39.01\n".parse()?;
/// let plats = Plats::new([Basis::from(plat), Basis::from(table)])?;
///
/// let text = "T. 2 N., R. 3 W., sec. 5, lots 1 and 2; T. 3 N., R. 3 W., sec. 31, lots 1 and 2.";
/// assert_eq!(plats.acres(text)?.to_string(), "158.98");
/// for (township, acres) in plats.acres_by_township(text)? {
///     println!("{township}: {acres}");
/// }
///
/// let error = plats.acres("T. 4 N., R. 3 W., sec. 14.").unwrap_err();
/// assert_eq!(
///     error.to_string(),
///     "there are no field notes and no lot table for T. 4 N., R. 3 W."
/// );
/// # Ok::<(), Box<dyn std::error::Error>>(())
/// ```
///
/// # Panics
///
/// If memory runs out, these functions panic with the message `township: out of memory`.
#[derive(Clone, Debug, Default, PartialEq, Eq)]
#[cfg_attr(feature = "serde", derive(serde::Serialize, serde::Deserialize))]
#[cfg_attr(feature = "serde", serde(try_from = "Vec<Basis>", into = "Vec<Basis>"))]
pub struct Plats {
    by_township: BTreeMap<Township, Basis>,
}

/// The error for land in several townships that has no acreage.
#[derive(Clone, Debug, PartialEq, Eq, Hash)]
#[cfg_attr(feature = "serde", derive(serde::Serialize, serde::Deserialize))]
#[non_exhaustive]
pub enum NoAcres {
    /// There is no plat and no lot table for this township.
    MissingPlat(Township),
    /// The text is refused, or the lot table of a township lacks a lot of the land (94).
    Refused(Refused),
    /// The land was read without the lot table of its township, or by another, and has other lots.
    OtherPlat(OtherPlat),
}

/// The error for two different plats, or two different lot tables with the same date, of one township.
#[derive(Clone, Copy, Debug, PartialEq, Eq, Hash)]
#[cfg_attr(feature = "serde", derive(serde::Serialize, serde::Deserialize))]
#[non_exhaustive]
pub struct DifferentPlats {
    /// The township.
    pub township: Township,
    /// Whether they are lot tables.
    pub are_lot_tables: bool,
}

impl Plats {
    /// Makes the plats and lot tables of several townships, in any order. The values of a map from
    /// townships are such an order, too. The same plat or table may be given again.
    ///
    /// # Errors
    ///
    /// Returns [`DifferentPlats`] if a township has two different plats, or two different lot tables with the
    /// same date, or without one.
    pub fn new<B: Into<Basis>>(
        plats: impl IntoIterator<Item = B>,
    ) -> Result<Plats, DifferentPlats> {
        let mut kept: BTreeMap<(Township, bool, Option<Date>), Basis> = BTreeMap::new();
        for basis in plats {
            let basis = basis.into();
            let key = (basis.township(), basis.is_lot_table(), basis.date());
            match kept.get(&key) {
                Some(other) if *other != basis => {
                    return Err(DifferentPlats {
                        township: key.0,
                        are_lot_tables: key.1,
                    })
                }
                _ => kept.insert(key, basis),
            };
        }
        // The lot tables of a township come after its plat, from the oldest to the newest, and each replaces
        // the one before.
        let by_township = kept
            .into_iter()
            .map(|((township, ..), basis)| (township, basis))
            .collect();
        Ok(Plats { by_township })
    }

    /// Returns what acreage in a township is computed by, if there is anything.
    pub fn get(&self, township: Township) -> Option<&Basis> {
        self.by_township.get(&township)
    }

    /// Returns an iterator over the townships, and what acreage in each is computed by.
    pub fn iter(&self) -> impl Iterator<Item = (Township, &Basis)> + '_ {
        self.by_township
            .iter()
            .map(|(&township, basis)| (township, basis))
    }

    /// Returns the number of townships.
    pub fn len(&self) -> usize {
        self.by_township.len()
    }

    /// Returns whether there are none.
    pub fn is_empty(&self) -> bool {
        self.by_township.is_empty()
    }

    /// Returns the land that a text names, in all its townships: [`Lands::read`].
    ///
    /// # Errors
    ///
    /// The same as for [`Lands::read`].
    pub fn land(&self, text: &str) -> Result<Lands, Refused> {
        Lands::read_by(text, |township| self.table_of(township))
    }

    /// Returns the acreage of the land that a text names, rounded once to hundredths, half up.
    ///
    /// # Errors
    ///
    /// Returns [`NoAcres`] if the text is refused, if there is no plat and no lot table for one of its
    /// townships, or if a lot table lacks a lot of the land.
    ///
    /// ```
    /// # let notes = include_bytes!(concat!(env!("TOWNSHIP_FILES"), "/samples/b1.csv"));
    /// # use township::{Plat, Plats};
    /// let plats = Plats::new([Plat::read(notes)?])?;
    /// let acres = plats.acres("T2N R3W sec. 7, lot 1; T2N R3W sec. 7, lot 4")?;
    /// assert_eq!(acres.to_string(), "78.20");
    /// # Ok::<(), Box<dyn std::error::Error>>(())
    /// ```
    pub fn acres(&self, text: &str) -> Result<Acres, NoAcres> {
        self.acres_by(text, Account::Exact)
    }

    /// Returns the same by an account, which is about whole lots on a plat.
    ///
    /// # Errors
    ///
    /// The same as for [`Plats::acres`].
    pub fn acres_by(&self, text: &str, account: Account) -> Result<Acres, NoAcres> {
        Ok(self.area_by(text, account)?.rounded())
    }

    /// Returns the exact area of the land that a text names, in acres. [`Plats::acres`] returns it
    /// rounded.
    ///
    /// # Errors
    ///
    /// The same as for [`Plats::acres`].
    pub fn area(&self, text: &str) -> Result<Area, NoAcres> {
        self.area_by(text, Account::Exact)
    }

    /// Returns the same by an account.
    ///
    /// # Errors
    ///
    /// The same as for [`Plats::acres`].
    pub fn area_by(&self, text: &str, account: Account) -> Result<Area, NoAcres> {
        self.lands_area_by(&self.land(text)?, account)
    }

    /// Returns the acreage of the land that a text names in each township. Each figure is rounded
    /// independently.
    ///
    /// # Errors
    ///
    /// The same as for [`Plats::acres`].
    pub fn acres_by_township(&self, text: &str) -> Result<Vec<(Township, Acres)>, NoAcres> {
        let areas = self.areas(&self.land(text)?, Account::Exact)?;
        Ok(each_rounded(&areas))
    }

    /// Returns the acreage of land, rounded once to hundredths, half up.
    ///
    /// # Errors
    ///
    /// Returns [`NoAcres`] if there is no plat and no lot table for one of its townships, or if a lot
    /// table lacks a lot of it.
    pub fn lands_acres(&self, lands: &Lands) -> Result<Acres, NoAcres> {
        Ok(self.lands_area(lands)?.rounded())
    }

    /// Returns the exact area of land, in acres. [`Plats::lands_acres`] returns it rounded.
    ///
    /// # Errors
    ///
    /// The same as for [`Plats::lands_acres`].
    pub fn lands_area(&self, lands: &Lands) -> Result<Area, NoAcres> {
        self.lands_area_by(lands, Account::Exact)
    }

    /// Returns the same by an account.
    ///
    /// # Errors
    ///
    /// The same as for [`Plats::lands_acres`].
    pub fn lands_area_by(&self, lands: &Lands, account: Account) -> Result<Area, NoAcres> {
        let areas = self.areas(lands, account)?;
        Ok(areas.iter().map(|(_, area)| area).sum())
    }

    /// Returns the lot table of a township, if it says where its lots lie: then descriptions are read by it.
    pub(crate) fn table_of(&self, township: Township) -> Option<&Lots> {
        match self.get(township) {
            Some(Basis::Lots(lots)) => Some(lots).filter(|lots| lots.has_land()),
            _ => None,
        }
    }

    /// Returns the exact area of land in each of its townships.
    fn areas(&self, lands: &Lands, account: Account) -> Result<Vec<(Township, Area)>, NoAcres> {
        lands
            .by_township()
            .map(|(township, land)| {
                let basis = self.get(township).ok_or(NoAcres::MissingPlat(township))?;
                Ok((township, basis.area(land, account)?))
            })
            .collect()
    }
}

impl Basis {
    /// Returns the township's designation.
    pub fn township(&self) -> Township {
        match self {
            Basis::Plat(plat) => plat.township(),
            Basis::Lots(lots) => lots.township(),
        }
    }

    fn is_lot_table(&self) -> bool {
        matches!(self, Basis::Lots(_))
    }

    /// Returns the date of a lot table, if it has one.
    fn date(&self) -> Option<Date> {
        match self {
            Basis::Plat(_) => None,
            Basis::Lots(lots) => lots.date(),
        }
    }

    /// Returns the exact area of land in the township. A refusal names the township.
    fn area(&self, land: &Land, account: Account) -> Result<Area, NoAcres> {
        let found = match self {
            Basis::Plat(plat) => plat.land_area_by(land, account).map_err(NoLandAcres::from),
            Basis::Lots(lots) => lots.land_area(land),
        };
        match found {
            Ok(area) => Ok(area),
            Err(NoLandAcres::Lacking(refused)) => {
                Err(refused.of_source(&self.township().to_string()).into())
            }
            Err(NoLandAcres::OtherPlat(error)) => Err(NoAcres::OtherPlat(error)),
        }
    }
}

/// Returns areas in townships, each rounded.
fn each_rounded(areas: &[(Township, Area)]) -> Vec<(Township, Acres)> {
    areas
        .iter()
        .map(|(township, area)| (*township, area.rounded()))
        .collect()
}

impl TryFrom<Vec<Basis>> for Plats {
    type Error = DifferentPlats;

    /// Makes the plats and lot tables of several townships: [`Plats::new`].
    fn try_from(plats: Vec<Basis>) -> Result<Plats, DifferentPlats> {
        Plats::new(plats)
    }
}

impl From<Plats> for Vec<Basis> {
    fn from(plats: Plats) -> Vec<Basis> {
        plats.by_township.into_values().collect()
    }
}

impl From<Plat> for Basis {
    fn from(plat: Plat) -> Basis {
        Basis::Plat(plat)
    }
}

impl From<Lots> for Basis {
    fn from(lots: Lots) -> Basis {
        Basis::Lots(lots)
    }
}

impl From<Refused> for NoAcres {
    fn from(refused: Refused) -> NoAcres {
        NoAcres::Refused(refused)
    }
}

impl fmt::Display for NoAcres {
    fn fmt(&self, f: &mut fmt::Formatter<'_>) -> fmt::Result {
        match self {
            NoAcres::MissingPlat(township) => write!(
                f,
                "there are no field notes and no lot table for {township}"
            ),
            NoAcres::Refused(refused) => fmt::Display::fmt(refused, f),
            NoAcres::OtherPlat(error) => fmt::Display::fmt(error, f),
        }
    }
}

impl Error for NoAcres {}

impl fmt::Display for DifferentPlats {
    fn fmt(&self, f: &mut fmt::Formatter<'_>) -> fmt::Result {
        let kind = if self.are_lot_tables {
            "lot tables"
        } else {
            "field notes"
        };
        write!(f, "these are different {kind} for {}", self.township)
    }
}

impl Error for DifferentPlats {}
