//! Differences between the acreage that a plat gives for its lots and the returned acreage.

use crate::acres::Acres;
use std::fmt;

/// A lot whose computed acreage differs from the one returned on the approved plat.
///
/// It is displayed as `sec. 5, lot 2: computed 40.55, returned 40.50`.
#[derive(Clone, Copy, Debug, PartialEq, Eq, Hash)]
#[cfg_attr(feature = "serde", derive(serde::Serialize, serde::Deserialize))]
#[non_exhaustive]
pub struct Difference {
    /// The section's number.
    pub section: u8,
    /// The lot's number.
    pub lot: u8,
    /// The acreage on the printed plat, which is computed from the field notes and rounded.
    pub computed: Acres,
    /// The acreage in the lot table.
    pub returned: Acres,
}

impl Difference {
    /// Returns the hundredths of an acre by which the returned acreage is more than the computed one.
    pub fn hundredths(&self) -> i64 {
        // Figures of lots have at most five digits.
        self.returned.hundredths() as i64 - self.computed.hundredths() as i64
    }
}

impl fmt::Display for Difference {
    fn fmt(&self, f: &mut fmt::Formatter<'_>) -> fmt::Result {
        let Difference {
            section,
            lot,
            computed,
            returned,
        } = self;
        write!(
            f,
            "sec. {section}, lot {lot}: computed {computed}, returned {returned}"
        )
    }
}
