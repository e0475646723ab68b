//! The figures of a printed plat, as data.

use crate::acres::Acres;
use crate::ffi::{self, SECTIONS};

/// The figures of a printed plat. Each is an exact area, rounded independently.
///
/// ```
/// # let notes = include_bytes!(concat!(env!("TOWNSHIP_FILES"), "/samples/b1.csv"));
/// # let plat = township::Plat::read(notes)?;
/// let figures = plat.figures();
/// let section = figures.section(7).unwrap();
/// assert_eq!(section.lot(4).unwrap().to_string(), "39.03");
/// assert_eq!(section.total.to_string(), "636.40");
/// assert_eq!(figures.total.to_string(), "23037.57");
/// # Ok::<(), township::Refused>(())
/// ```
#[derive(Clone, Debug, PartialEq, Eq, Hash)]
#[cfg_attr(feature = "serde", derive(serde::Serialize, serde::Deserialize))]
#[non_exhaustive]
pub struct Figures {
    /// The 36 sections, in the order of their numbers.
    pub sections: Vec<Section>,
    /// The acreage of the township.
    pub total: Acres,
}

/// A section of a printed plat.
#[derive(Clone, Debug, PartialEq, Eq, Hash)]
#[cfg_attr(feature = "serde", derive(serde::Serialize, serde::Deserialize))]
#[non_exhaustive]
pub struct Section {
    /// The section's number, 1 to 36.
    pub number: u8,
    /// The acreage of lot 1, lot 2, and so on. A section has four lots, seven lots, or none.
    pub lots: Vec<Acres>,
    /// The acreage of the section.
    pub total: Acres,
}

impl Figures {
    /// Returns a section by its number, or `None` if the number is not 1 to 36.
    pub fn section(&self, number: u8) -> Option<&Section> {
        self.sections.get(usize::from(number).checked_sub(1)?)
    }

    pub(crate) fn from_data(figures: &ffi::PlatFigures) -> Figures {
        let sections = (0..SECTIONS).map(|index| Section::from_data(figures, index));
        Figures {
            sections: sections.collect(),
            total: Acres::from_hundredths(figures.township),
        }
    }
}

impl Section {
    /// Returns the acreage of a lot by its number, or `None` if the section has no such lot.
    pub fn lot(&self, number: u8) -> Option<Acres> {
        self.lots.get(usize::from(number).checked_sub(1)?).copied()
    }

    fn from_data(figures: &ffi::PlatFigures, index: usize) -> Section {
        // The places of lots that a section does not have are 0, which is no lot's figure.
        let lots = figures.lots[index]
            .iter()
            .filter(|&&hundredths| hundredths > 0);
        Section {
            number: index as u8 + 1,
            lots: lots.copied().map(Acres::from_hundredths).collect(),
            total: Acres::from_hundredths(figures.sections[index]),
        }
    }
}
