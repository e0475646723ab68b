//! The texts of lot tables.

use super::{Lots, PlatLot};
use crate::ffi::SECTIONS;
use crate::refused::Refused;
use std::collections::BTreeMap;
use std::fmt;
use std::str::FromStr;

impl TryFrom<&[u8]> for Lots {
    type Error = Refused;

    /// Reads a lot table: [`Lots::read`].
    fn try_from(table: &[u8]) -> Result<Lots, Refused> {
        Lots::read(table)
    }
}

impl FromStr for Lots {
    type Err = Refused;

    /// Reads a lot table: [`Lots::read`].
    fn from_str(table: &str) -> Result<Lots, Refused> {
        Lots::read(table.as_bytes())
    }
}

impl fmt::Display for Lots {
    /// Writes the table (CSV), from which [`Lots::read`] makes it again. The text exceeds 65,536 bytes,
    /// and is then refused as too large, only if lots share dozens of quarter-quarters in very small
    /// parts.
    fn fmt(&self, f: &mut fmt::Formatter<'_>) -> fmt::Result {
        let township = self.township();
        let (number, range) = (township.number(), township.range());
        let (north_south, east_west) = (township.north_south(), township.east_west());
        let land = if self.has_land() { ",land" } else { "" };
        write!(
            f,
            "section,lot,acres{land}\nT,{number},{north_south},{range},{east_west}"
        )?;
        match self.date() {
            Some(date) => writeln!(f, ",{date}")?,
            None => writeln!(f)?,
        }
        if self.has_land() {
            self.write_records(f)
        } else {
            self.write_standard_records(f)
        }
    }
}

impl Lots {
    /// Writes a record for each lot, and for the land of a section that is not there.
    fn write_records(&self, f: &mut fmt::Formatter<'_>) -> fmt::Result {
        for section in 1..=SECTIONS as u8 {
            for PlatLot { lot, acres, land } in self.section(section) {
                let lot = lot.map_or_else(String::new, |lot| lot.to_string());
                let acres = acres.map_or_else(String::new, |acres| acres.to_string());
                // A field with a comma needs quotation marks, and no field contains one.
                let mark = if land.contains(',') { "\"" } else { "" };
                writeln!(f, "{section},{lot},{acres},{mark}{land}{mark}")?;
            }
        }
        Ok(())
    }

    fn write_standard_records(&self, f: &mut fmt::Formatter<'_>) -> fmt::Result {
        for (section, lot, acres) in self.figures() {
            if let Some(acres) = acres {
                writeln!(f, "{section},{lot},{acres}")?;
            }
        }
        Ok(())
    }
}

impl fmt::Debug for Lots {
    fn fmt(&self, f: &mut fmt::Formatter<'_>) -> fmt::Result {
        let has = self
            .figures()
            .filter_map(|(section, lot, acres)| Some(((section, lot), acres?.hundredths())));
        let mut shown = f.debug_struct("Lots");
        shown.field("township", &self.township());
        if let Some(date) = self.date() {
            shown.field("date", &date);
        }
        if self.has_land() {
            let sections = (1..=SECTIONS as u8).map(|number| (number, self.section(number)));
            let lots: BTreeMap<u8, Vec<PlatLot>> =
                sections.filter(|(_, lots)| !lots.is_empty()).collect();
            return shown.field("sections", &lots).finish();
        }
        shown
            .field("hundredths", &has.collect::<BTreeMap<_, _>>())
            .finish()
    }
}
