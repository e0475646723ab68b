//! The readings of texts on the plat of a lot table.

use super::Lots;
use crate::readings::{readings_without, Phrases, Suggestion};

impl Lots {
    /// Suggests how a text would be written as a description on the plat of the table: see [`suggest`].
    /// If an aliquot part includes lots, the reading names the lots of this plat.
    ///
    /// ```
    /// let table = b"section,lot,acres,land\nT,2,N,3,W\n14,1,38.50,NE1/4NE1/4\n";
    /// let lots = township::Lots::read(table)?;
    /// let found = lots.suggest("Sec 14: N2");
    /// assert_eq!(lots.acres(&found.readings[0])?.to_string(), "318.50");
    /// assert_eq!(
    ///     lots.normal(&found.readings[0])?,
    ///     "T. 2 N., R. 3 W.,\nsec. 14, lot 1, NW1/4NE1/4, S1/2NE1/4, NW1/4.\n"
    /// );
    /// assert_eq!(township::suggest("Sec 14: N2").readings[0].text, "Sec 14: N1/2");
    /// # Ok::<(), township::Refused>(())
    /// ```
    ///
    /// [`suggest`]: crate::suggest
    pub fn suggest(&self, text: impl AsRef<[u8]>) -> Suggestion {
        readings_without(text.as_ref(), &[], Some(&self.data))
    }

    /// The same without phrases that are not land: see [`suggest_without`].
    ///
    /// [`suggest_without`]: crate::suggest_without
    pub fn suggest_without(&self, text: impl AsRef<[u8]>, phrases: &Phrases) -> Suggestion {
        let text = text.as_ref();
        readings_without(text, &phrases.places_in(text), Some(&self.data))
    }
}
