//! Land on a plat.

use super::Plat;
use crate::account::Account;
use crate::acres::Acres;
use crate::answer::OtherPlat;
use crate::area::Area;
use crate::difference::Difference;
use crate::ffi;
use crate::land::Land;
use crate::lots::Lots;
use crate::refused::Refused;

impl Plat {
    /// Returns the land described, as a value that can be combined and compared with other land.
    ///
    /// # Errors
    ///
    /// The same as for [`Plat::acres`].
    ///
    /// ```
    /// # let notes = include_bytes!(concat!(env!("TOWNSHIP_FILES"), "/samples/b1.csv"));
    /// # let plat = township::Plat::read(notes)?;
    /// let rest = plat.land("sec. 5, all.")? - plat.land("sec. 5, lots 1 and 2.")?;
    /// assert_eq!(plat.land_acres(&rest)?.to_string(), "561.40");
    /// # Ok::<(), Box<dyn std::error::Error>>(())
    /// ```
    pub fn land(&self, description: impl AsRef<[u8]>) -> Result<Land, Refused> {
        Land::read_on(&self.parts, self.township(), description.as_ref())
    }

    /// Returns the acreage of land, rounded once to hundredths, half up.
    ///
    /// # Errors
    ///
    /// Returns [`OtherPlat`] if the land is in another township, or has the lots of a table.
    pub fn land_acres(&self, land: &Land) -> Result<Acres, OtherPlat> {
        self.land_acres_by(land, Account::Exact)
    }

    /// Returns the acreage of land, by an account.
    ///
    /// # Errors
    ///
    /// The same as for [`Plat::land_acres`].
    ///
    /// ```
    /// # let notes = include_bytes!(concat!(env!("TOWNSHIP_FILES"), "/samples/b1.csv"));
    /// # let plat = township::Plat::read(notes)?;
    /// use township::Account;
    ///
    /// let lots = plat.land("sec. 7, lots 1 to 4, inclusive.")?;
    /// assert_eq!(plat.land_acres_by(&lots, Account::Exact)?.to_string(), "156.40");
    /// assert_eq!(plat.land_acres_by(&lots, Account::Plat)?.to_string(), "156.42");
    /// # Ok::<(), Box<dyn std::error::Error>>(())
    /// ```
    pub fn land_acres_by(&self, land: &Land, account: Account) -> Result<Acres, OtherPlat> {
        let answer = ffi::land_acres(&self.parts, land.data(), account.code());
        let answer = answer.on_one_plat(land.township(), self.township())?;
        match answer.accepted() {
            Ok(answer) => Ok(Acres::from_hundredths(answer.hundredths)),
            Err(fault) => unreachable!("land has acres, and {}", fault.refusal),
        }
    }

    /// Returns the exact area of land, in acres. [`Plat::land_acres`] returns it rounded.
    ///
    /// # Errors
    ///
    /// The same as for [`Plat::land_acres`].
    ///
    /// ```
    /// # let notes = include_bytes!(concat!(env!("TOWNSHIP_FILES"), "/samples/b1.csv"));
    /// # let plat = township::Plat::read(notes)?;
    /// let lot = plat.land("sec. 5, lot 1.")?;
    /// assert_eq!(plat.land_area(&lot)?.to_string(), "809/20");
    /// # Ok::<(), Box<dyn std::error::Error>>(())
    /// ```
    pub fn land_area(&self, land: &Land) -> Result<Area, OtherPlat> {
        self.land_area_by(land, Account::Exact)
    }

    /// Returns the exact area of land, in acres, by an account.
    ///
    /// # Errors
    ///
    /// The same as for [`Plat::land_acres`].
    pub fn land_area_by(&self, land: &Land, account: Account) -> Result<Area, OtherPlat> {
        let (answer, area) = ffi::land_area(&self.parts, land.data(), account.code());
        let answer = answer.on_one_plat(land.township(), self.township())?;
        match answer.accepted() {
            Ok(_) => Ok(Area::from_fraction(area)),
            Err(fault) => unreachable!("land has an area, and {}", fault.refusal),
        }
    }

    /// Returns the lots whose acreage on the printed plat differs from the one in a lot table, in
    /// order of section and lot. Lots that the table lacks are left out.
    ///
    /// # Errors
    ///
    /// Returns [`OtherPlat`] if the table is for another township, or says where its lots lie.
    ///
    /// ```
    /// # let notes = include_bytes!(concat!(env!("TOWNSHIP_FILES"), "/samples/b1.csv"));
    /// # let plat = township::Plat::read(notes)?;
    /// let lots = "section,lot,acres\nT,2,N,3,W\n5,1,40.45\n5,2,40.50\n".parse()?;
    /// let differences = plat.differences(&lots)?;
    /// assert_eq!(differences.len(), 1);
    /// assert_eq!(
    ///     differences[0].to_string(),
    ///     "sec. 5, lot 2: computed 40.55, returned 40.50"
    /// );
    /// assert_eq!(differences[0].hundredths(), -5);
    /// # Ok::<(), Box<dyn std::error::Error>>(())
    /// ```
    pub fn differences(&self, lots: &Lots) -> Result<Vec<Difference>, OtherPlat> {
        if lots.township() != self.township() || lots.has_land() {
            return Err(OtherPlat {
                first: lots.township(),
                second: self.township(),
            });
        }
        let figures = self.figures();
        let differs = |(section, lot, returned): (u8, u8, Option<Acres>)| {
            let computed = figures.section(section)?.lot(lot)?;
            let returned = returned.filter(|&returned| returned != computed)?;
            Some(Difference {
                section,
                lot,
                computed,
                returned,
            })
        };
        Ok(lots.figures().filter_map(differs).collect())
    }
}
