//! Reports of tracts, as data.

use crate::acres::Acres;
use crate::answer::Fault;
use crate::ffi::{self, Totals};
use crate::refused::Refusal;
use std::fmt;

/// A tract in a report, with its acreage. It is displayed as `tract A: 39.18 acres`.
#[derive(Clone, Debug, PartialEq, Eq, Hash)]
#[cfg_attr(feature = "serde", derive(serde::Serialize, serde::Deserialize))]
pub struct Tract {
    /// The name: 1 to 64 printable ASCII characters.
    pub name: String,
    /// The acreage.
    pub acres: Acres,
}

/// The report on a list of tracts. Each figure is an exact area, rounded independently.
///
/// It is displayed as the text that [`Plat::report`](crate::Plat::report) returns.
///
/// ```
/// # let notes = include_bytes!(concat!(env!("TOWNSHIP_FILES"), "/samples/b1.csv"));
/// # let plat = township::Plat::read(notes)?;
/// let report = plat.report_of([("A", "sec. 7, lot 1."), ("B", "sec. 7, lot 4.")])?;
/// assert_eq!(report.to_string(), "\
/// tract A: 39.18 acres
/// tract B: 39.03 acres
/// total: 78.20 acres
/// remaining: 22959.37 acres
/// ");
/// # Ok::<(), township::Refused>(())
/// ```
#[derive(Clone, Debug, PartialEq, Eq, Hash)]
#[cfg_attr(feature = "serde", derive(serde::Serialize, serde::Deserialize))]
pub struct Report {
    /// The tracts, in the order of the list.
    pub tracts: Vec<Tract>,
    /// The acreage of all tracts together.
    pub total: Acres,
    /// The acreage of all other land in the township.
    pub remaining: Acres,
}

/// The report on a list of tracts by a lot table. Each figure is an exact area, rounded independently.
#[derive(Clone, Debug, PartialEq, Eq, Hash)]
#[cfg_attr(feature = "serde", derive(serde::Serialize, serde::Deserialize))]
#[non_exhaustive]
pub struct LotsReport {
    /// The tracts, in the order of the list.
    pub tracts: Vec<Tract>,
    /// The acreage of all tracts together.
    pub total: Acres,
}

/// The answer to a tract of a list, whatever is wrong with the others.
#[derive(Clone, Debug, PartialEq, Eq, Hash)]
#[cfg_attr(feature = "serde", derive(serde::Serialize, serde::Deserialize))]
#[non_exhaustive]
pub struct TractAnswer {
    /// The name, which is empty if the record is not a tract's (81).
    pub name: String,
    /// The acreage, or the first refusal that the tract has by itself.
    pub answer: Result<Acres, TractRefusal>,
}

/// The refusal of a tract of a list.
#[derive(Clone, Copy, Debug, PartialEq, Eq, Hash)]
#[cfg_attr(feature = "serde", derive(serde::Serialize, serde::Deserialize))]
#[non_exhaustive]
pub struct TractRefusal {
    /// The refusal, with the number 81, 82, or 83, at the tract's record.
    pub refusal: Refusal,
    /// For refusal 83, the refusal of the tract's description.
    pub inner: Option<Refusal>,
}

/// Two tracts of a list that overlap, by their indexes: the tract with index k is record k + 2.
#[derive(Clone, Copy, Debug, PartialEq, Eq, Hash)]
#[cfg_attr(feature = "serde", derive(serde::Serialize, serde::Deserialize))]
#[non_exhaustive]
pub struct Overlap {
    /// The index of the earlier tract.
    pub first: usize,
    /// The index of the later one.
    pub second: usize,
    /// The acreage of the land in both.
    pub acres: Acres,
}

/// Two tracts of a list that overlap, or two tracts in several townships, by their indexes.
#[derive(Clone, Copy, Debug, PartialEq, Eq, Hash)]
#[cfg_attr(feature = "serde", derive(serde::Serialize, serde::Deserialize))]
#[non_exhaustive]
pub struct LotsOverlap {
    /// The index of the earlier tract.
    pub first: usize,
    /// The index of the later one.
    pub second: usize,
    /// The acreage of the land in both. `None` if the lot table lacks one of its lots, or if there is no
    /// plat and no lot table for one of its townships.
    pub acres: Option<Acres>,
}

/// The record of the first tract of a list.
pub(crate) const FIRST_TRACT: usize = 2;

impl Overlap {
    pub(crate) fn from_data(overlap: &ffi::Overlap) -> Overlap {
        Overlap {
            first: overlap.first as usize - FIRST_TRACT,
            second: overlap.second as usize - FIRST_TRACT,
            acres: Acres::from_hundredths(overlap.hundredths),
        }
    }
}

impl LotsOverlap {
    pub(crate) fn from_data(overlap: &ffi::LotsOverlap) -> LotsOverlap {
        let acres = Acres::from_hundredths(overlap.hundredths);
        LotsOverlap {
            first: overlap.first as usize - FIRST_TRACT,
            second: overlap.second as usize - FIRST_TRACT,
            acres: (overlap.lacking == 0).then_some(acres),
        }
    }
}

impl TractAnswer {
    /// Returns the answer to a tract. Panics if memory ran out.
    pub(crate) fn from_data(given: &ffi::TractAnswer) -> TractAnswer {
        let refused = |fault: Fault| TractRefusal {
            refusal: fault.refusal,
            inner: fault.inner,
        };
        let accepted = given.answer.accepted();
        TractAnswer {
            name: name_of(&given.name[..given.name_length as usize]),
            answer: accepted
                .map(|answer| Acres::from_hundredths(answer.hundredths))
                .map_err(refused),
        }
    }
}

/// Returns a name, which is ASCII.
fn name_of(bytes: &[u8]) -> String {
    String::from_utf8_lossy(bytes).into_owned()
}

impl Report {
    pub(crate) fn from_data(tracts: &[ffi::Tract], totals: Totals) -> Report {
        Report {
            tracts: tracts.iter().map(Tract::from_data).collect(),
            total: Acres::from_hundredths(totals.total),
            remaining: Acres::from_hundredths(totals.remaining),
        }
    }
}

impl LotsReport {
    pub(crate) fn from_data(tracts: &[ffi::Tract], total: u64) -> LotsReport {
        LotsReport {
            tracts: tracts.iter().map(Tract::from_data).collect(),
            total: Acres::from_hundredths(total),
        }
    }
}

impl Tract {
    fn from_data(tract: &ffi::Tract) -> Tract {
        Tract {
            name: name_of(&tract.name[..tract.name_length as usize]),
            acres: Acres::from_hundredths(tract.hundredths),
        }
    }
}

/// Returns the list of tracts (CSV) with these names and descriptions. Every field is quoted.
pub(crate) fn list_of<N, D>(tracts: impl IntoIterator<Item = (N, D)>) -> Vec<u8>
where
    N: AsRef<[u8]>,
    D: AsRef<[u8]>,
{
    let mut list = b"name,description\n".to_vec();
    for (name, description) in tracts {
        put_quoted(&mut list, name.as_ref());
        list.push(b',');
        put_quoted(&mut list, description.as_ref());
        list.push(b'\n');
    }
    list
}

/// Appends a field in quotes, with each quote inside it doubled.
fn put_quoted(list: &mut Vec<u8>, field: &[u8]) {
    list.push(b'"');
    for &byte in field {
        if byte == b'"' {
            list.push(b'"');
        }
        list.push(byte);
    }
    list.push(b'"');
}

impl fmt::Display for Tract {
    fn fmt(&self, f: &mut fmt::Formatter<'_>) -> fmt::Result {
        write!(f, "tract {}: {} acres", self.name, self.acres)
    }
}

impl fmt::Display for Report {
    fn fmt(&self, f: &mut fmt::Formatter<'_>) -> fmt::Result {
        for tract in &self.tracts {
            writeln!(f, "{tract}")?;
        }
        writeln!(f, "total: {} acres", self.total)?;
        writeln!(f, "remaining: {} acres", self.remaining)
    }
}

#[cfg(test)]
mod tests {
    use super::*;

    #[test]
    fn lists_are_quoted() {
        let list = list_of([("A", "sec. 7, lot 1."), ("the \"old\" place", "")]);
        let wanted = "name,description\n\"A\",\"sec. 7, lot 1.\"\n\"the \"\"old\"\" place\",\"\"\n";
        assert_eq!(String::from_utf8(list).unwrap(), wanted);
        assert_eq!(list_of::<&str, &str>([]), b"name,description\n");
    }
}
