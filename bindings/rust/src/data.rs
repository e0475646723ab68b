//! The forms in which `serde` writes and reads the types here, with the feature `serde`.
//!
//! Acreage, areas, dates, townships, sides, accounts, and lot tables are the texts that they display. A plat
//! has its two parts, `township` and `closing_quarters`; land has `township` and, for each section
//! with land, `rows`, and if it is on the plat of a lot table with a date, or with the places of its
//! lots, `date` or `lots`. They are checked as by `Plat::from_parts` and `Land::from_rows`.

use crate::ffi::{PLACES_ACROSS, SECTIONS};
use crate::{
    Account, Acres, Area, Date, EastWest, Land, Lots, NoLand, NoPlat, NorthSouth, Plat, Township,
    LINES,
};
use serde::de::{self, Visitor};
use serde::{Deserialize, Deserializer, Serialize, Serializer};
use std::collections::BTreeMap;
use std::fmt;
use std::marker::PhantomData;
use std::str::FromStr;

/// A visitor for a type that is read from its text.
struct Text<T>(PhantomData<T>);

impl<T> Visitor<'_> for Text<T>
where
    T: FromStr,
    T::Err: fmt::Display,
{
    type Value = T;

    fn expecting(&self, f: &mut fmt::Formatter<'_>) -> fmt::Result {
        f.write_str("a text")
    }

    fn visit_str<E: de::Error>(self, text: &str) -> Result<T, E> {
        text.parse().map_err(E::custom)
    }
}

macro_rules! as_text {
    ($($type:ty),*) => {$(
        impl Serialize for $type {
            fn serialize<S: Serializer>(&self, serializer: S) -> Result<S::Ok, S::Error> {
                serializer.collect_str(self)
            }
        }

        impl<'de> Deserialize<'de> for $type {
            fn deserialize<D: Deserializer<'de>>(deserializer: D) -> Result<$type, D::Error> {
                deserializer.deserialize_str(Text(PhantomData))
            }
        }
    )*};
}

as_text!(Account, Acres, Area, Date, EastWest, Lots, NorthSouth, Township);

/// The parts of a plat, as they are written.
#[derive(Clone, Serialize, Deserialize)]
#[serde(rename = "Plat")]
pub(crate) struct PlatData {
    township: Township,
    closing_quarters: Vec<u32>,
}

impl From<Plat> for PlatData {
    fn from(plat: Plat) -> PlatData {
        PlatData {
            township: plat.township(),
            closing_quarters: plat.closing_quarters().to_vec(),
        }
    }
}

impl TryFrom<PlatData> for Plat {
    type Error = NoPlat;

    fn try_from(data: PlatData) -> Result<Plat, NoPlat> {
        let quarters = <[u32; LINES]>::try_from(data.closing_quarters).map_err(|_| NoPlat)?;
        Plat::from_parts(data.township, quarters)
    }
}

/// The parts of land, as they are written.
#[derive(Clone, Serialize, Deserialize)]
#[serde(rename = "Land")]
pub(crate) struct LandData {
    township: Township,
    /// By the number of the section.
    rows: BTreeMap<u8, Vec<u32>>,
    /// The date of the plat, if its lots are the standard lots.
    #[serde(default, skip_serializing_if = "Option::is_none")]
    date: Option<Date>,
    /// The lot table that says where the lots of the land lie.
    #[serde(default, skip_serializing_if = "Option::is_none")]
    lots: Option<Lots>,
}

impl From<Land> for LandData {
    fn from(land: Land) -> LandData {
        let rows_in = |(section, _)| (section, land.rows()[usize::from(section) - 1].to_vec());
        LandData {
            township: land.township(),
            rows: land.sections().map(rows_in).collect(),
            date: land.date().filter(|_| land.lots().is_none()),
            lots: land.lots().cloned(),
        }
    }
}

impl TryFrom<LandData> for Land {
    type Error = NoLand;

    fn try_from(data: LandData) -> Result<Land, NoLand> {
        let mut rows = [[0; PLACES_ACROSS]; SECTIONS];
        for (section, given) in data.rows {
            let index = usize::from(section).checked_sub(1);
            let places = index.and_then(|index| rows.get_mut(index)).ok_or(NoLand)?;
            *places = given.try_into().map_err(|_| NoLand)?;
        }
        match data.lots {
            Some(lots) if lots.township() == data.township => Land::from_rows_on(&lots, rows),
            Some(_) => Err(NoLand),
            None => Land::from_rows_of(data.township, data.date, rows),
        }
    }
}
