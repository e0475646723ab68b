//! Reports on tracts in several townships, and their overlaps.

use super::{each_rounded, NoAcres, Plats};
use crate::account::Account;
use crate::acres::Acres;
use crate::answer::Fault;
use crate::area::Area;
use crate::earlier::EarlierLands;
use crate::ffi;
use crate::lands::Lands;
use crate::refused::{Refusal, Refused, LIST};
use crate::report::{LotsOverlap, FIRST_TRACT};
use crate::township::Township;
use std::collections::{BTreeMap, HashSet};

/// A tract in several townships, with its acreage.
#[derive(Clone, Debug, PartialEq, Eq)]
#[cfg_attr(feature = "serde", derive(serde::Serialize, serde::Deserialize))]
#[non_exhaustive]
pub struct PlatsTract {
    /// The name.
    pub name: String,
    /// The acreage.
    pub acres: Acres,
    /// The acreage in each township, which is rounded independently.
    pub by_township: Vec<(Township, Acres)>,
}

/// The report on tracts in several townships. Each figure is an exact area, rounded independently.
#[derive(Clone, Debug, PartialEq, Eq)]
#[cfg_attr(feature = "serde", derive(serde::Serialize, serde::Deserialize))]
#[non_exhaustive]
pub struct PlatsReport {
    /// The tracts, in the order of the list.
    pub tracts: Vec<PlatsTract>,
    /// The acreage of all tracts together.
    pub total: Acres,
    /// The acreage of all tracts in each township.
    pub by_township: Vec<(Township, Acres)>,
}

impl Plats {
    /// Returns the report on tracts, each a name and a text: the acreage of each, and of all of them
    /// together.
    ///
    /// # Errors
    ///
    /// Returns a refusal of the first tract that has the name of an earlier one (82), whose text is
    /// refused (83, with the refusal in `inner`), or that overlaps an earlier one (84): the tract with
    /// index k is record k + 2. Returns [`NoAcres::MissingPlat`] for a township without a plat.
    ///
    /// ```
    /// # let notes = include_bytes!(concat!(env!("TOWNSHIP_FILES"), "/samples/b1.csv"));
    /// # use township::{Plat, Plats};
    /// let plats = Plats::new([Plat::read(notes)?])?;
    /// let report = plats.report([("A", "T2N R3W sec. 7, lot 1"), ("B", "T2N R3W sec. 7, lot 4")])?;
    /// assert_eq!(report.tracts[0].acres.to_string(), "39.18");
    /// assert_eq!(report.total.to_string(), "78.20");
    /// # Ok::<(), Box<dyn std::error::Error>>(())
    /// ```
    pub fn report<N, D>(
        &self,
        tracts: impl IntoIterator<Item = (N, D)>,
    ) -> Result<PlatsReport, NoAcres>
    where
        N: AsRef<str>,
        D: AsRef<str>,
    {
        let mut names = HashSet::new();
        let mut earlier = EarlierLands::default();
        let mut found: Vec<PlatsTract> = Vec::new();
        let mut totals: BTreeMap<Township, Area> = BTreeMap::new();
        for (index, (name, text)) in tracts.into_iter().enumerate() {
            let name = name.as_ref();
            if !names.insert(name.to_owned()) {
                let sentence = format!("an earlier tract has the name `{name}`");
                return Err(refused(ffi::REFUSAL_NAME_REPEATED, index, None, sentence));
            }
            let (lands, areas) = self.measured(text.as_ref()).map_err(|error| match error {
                NoAcres::Refused(inner) => tract_refused(index, &inner),
                other => other,
            })?;
            if let Some((other, both)) = earlier.shared(&lands).into_iter().next() {
                let other = &found[other].name;
                let sentence = format!("`{name}` overlaps `{other}`: {}", both.on_one_line());
                return Err(refused(ffi::REFUSAL_TRACTS_OVERLAP, index, None, sentence));
            }
            earlier.add(index, lands);
            for &(township, area) in &areas {
                *totals.entry(township).or_insert(Area::ZERO) += area;
            }
            found.push(PlatsTract {
                name: name.to_owned(),
                acres: sum_of(&areas),
                by_township: each_rounded(&areas),
            });
        }
        let totals: Vec<(Township, Area)> = totals.into_iter().collect();
        Ok(PlatsReport {
            tracts: found,
            total: sum_of(&totals),
            by_township: each_rounded(&totals),
        })
    }

    /// Returns all overlaps of tracts, each a name and a text, in the order of the later tract, and then
    /// of the earlier one. A tract whose text is refused overlaps none.
    ///
    /// ```
    /// # let notes = include_bytes!(concat!(env!("TOWNSHIP_FILES"), "/samples/b1.csv"));
    /// # use township::{Plat, Plats};
    /// let plats = Plats::new([Plat::read(notes)?])?;
    /// let overlaps = plats.overlaps([("A", "T2N R3W sec. 14"), ("B", "T2N R3W sec. 14, NE1/4")]);
    /// assert_eq!((overlaps[0].first, overlaps[0].second), (0, 1));
    /// assert_eq!(overlaps[0].acres.unwrap().to_string(), "160.00");
    /// # Ok::<(), Box<dyn std::error::Error>>(())
    /// ```
    pub fn overlaps<N, D>(&self, tracts: impl IntoIterator<Item = (N, D)>) -> Vec<LotsOverlap>
    where
        D: AsRef<str>,
    {
        let mut earlier = EarlierLands::default();
        let mut found = Vec::new();
        for (second, (_, text)) in tracts.into_iter().enumerate() {
            let lands = self.land(text.as_ref()).unwrap_or_default();
            for (first, both) in earlier.shared(&lands) {
                let acres = self.lands_acres(&both).ok();
                found.push(LotsOverlap {
                    first,
                    second,
                    acres,
                });
            }
            earlier.add(second, lands);
        }
        found
    }

    /// Returns the land that a text names, and its exact area in each township.
    fn measured(&self, text: &str) -> Result<(Lands, Vec<(Township, Area)>), NoAcres> {
        let lands = self.land(text)?;
        let areas = self.areas(&lands, Account::Exact)?;
        Ok((lands, areas))
    }
}

/// Returns the sum of areas, rounded once.
fn sum_of(areas: &[(Township, Area)]) -> Acres {
    areas.iter().map(|(_, area)| area).sum::<Area>().rounded()
}

/// Returns the refusal of a tract whose text is refused.
fn tract_refused(index: usize, inner: &Refused) -> NoAcres {
    let refusal = Refusal {
        number: inner.number,
        at: inner.at,
    };
    let sentence = inner.to_string();
    refused(ffi::REFUSAL_TRACT_REFUSED, index, Some(refusal), sentence)
}

/// Returns the refusal of the tract with this index.
fn refused(number: u32, index: usize, inner: Option<Refusal>, sentence: String) -> NoAcres {
    let record = index + FIRST_TRACT;
    let at = u32::try_from(record).expect("there are fewer tracts");
    let refusal = Refusal { number, at };
    let fault = Fault { refusal, inner };
    NoAcres::Refused(Refused::of_record(fault, LIST, record, sentence))
}
