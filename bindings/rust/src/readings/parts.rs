//! The readings of a text with the land of several townships: those of each of its parts.

use std::ops::Range;

use super::aside::blanked;
use super::{readings_without, Phrases, Suggestion};
use crate::ffi;
use crate::lots::Lots;
use crate::plats::{Basis, Plats};
use crate::refused::Refused;
use crate::split::{split, township_in_heading};
use crate::township::{EastWest, NorthSouth, Township};

/// The readings of the part of a text that is about one township. See [`Plats::suggest`].
#[derive(Clone, Debug, PartialEq, Eq, Hash)]
#[cfg_attr(feature = "serde", derive(serde::Serialize, serde::Deserialize))]
#[non_exhaustive]
pub struct PartReadings {
    /// Where the part begins in the whole text, in bytes.
    pub start: usize,
    /// Where it ends.
    pub end: usize,
    /// The readings of the part, or why it has none. Places in it are counted from its beginning.
    pub suggestion: Suggestion,
}

impl Plats {
    /// Suggests how each part of a text with the land of several townships would be written as a
    /// description.
    ///
    /// The parts are those of [`split`]. A text in which land is before the first heading is its only
    /// part, since its readings may begin with that heading. Each part is read by the plat or the lot
    /// table of its township, with the lots that the table has. Without a plat and a table, it is read
    /// with the standard lots, and a reading that depends on them says that it assumes them.
    ///
    /// # Errors
    ///
    /// Returns [`Refused`] if the text is too long (39).
    ///
    /// ```
    /// use township::{Lots, Plats};
    ///
    /// let table = b"section,lot,acres,land\nT,2,N,3,W\n14,1,38.50,NE1/4NE1/4\n";
    /// let plats = Plats::new([Lots::read(table)?])?;
    /// let parts = plats.suggest("T2N-R3W Sec 14: N2; T3N-R3W Sec 31: Lot 1")?;
    /// let reading = &parts[0].suggestion.readings[0];
    /// assert_eq!(plats.acres(&reading.text)?.to_string(), "318.50");
    /// assert!(!reading.assumes_standard_lots);
    /// // Of this township, no plat is known.
    /// assert!(parts[1].suggestion.readings[0].assumes_standard_lots);
    /// # Ok::<(), Box<dyn std::error::Error>>(())
    /// ```
    pub fn suggest(&self, text: &str) -> Result<Vec<PartReadings>, Refused> {
        self.parts_read(text, &[])
    }

    /// The same without phrases that are not land: see [`suggest_without`].
    ///
    /// # Errors
    ///
    /// The same as for [`Plats::suggest`].
    ///
    /// [`suggest_without`]: crate::suggest_without
    pub fn suggest_without(
        &self,
        text: &str,
        phrases: &Phrases,
    ) -> Result<Vec<PartReadings>, Refused> {
        self.parts_read(text, &phrases.places_in(text.as_bytes()))
    }

    fn parts_read(&self, text: &str, aside: &[Range<usize>]) -> Result<Vec<PartReadings>, Refused> {
        let left = String::from_utf8(blanked(text.as_bytes(), aside))
            .expect("a phrase consists of whole characters");
        let parts = parts_without(&left, aside)?;
        let read = |part: Range<usize>| PartReadings {
            start: part.start,
            end: part.end,
            suggestion: self.readings_in(
                &text[part.clone()],
                &left[part.clone()],
                &moved(aside, part),
            ),
        };
        Ok(parts.into_iter().map(read).collect())
    }

    /// Returns the readings of a part of a text without these places of it. `left` is the part with
    /// spaces in their place.
    fn readings_in(&self, part: &str, left: &str, aside: &[Range<usize>]) -> Suggestion {
        let readings =
            |lots: Option<&Lots>| readings_without(part.as_bytes(), aside, lots.map(Lots::data));
        let township = township_in(left).or_else(|| match readings(None) {
            found if found.readings.is_empty() => self.township_of_lots(left, readings),
            found => only_township(&found),
        });
        match township.and_then(|township| self.get(township)) {
            Some(Basis::Lots(lots)) => readings(Some(lots)),
            Some(Basis::Plat(_)) => readings(None),
            None => readings(None).with_standard_lots(),
        }
    }

    /// Returns the township of a text that has readings only by the lot table of this township, since it
    /// names lots that the table has, such as those beside a lake.
    fn township_of_lots(
        &self,
        left: &str,
        readings: impl Fn(Option<&Lots>) -> Suggestion,
    ) -> Option<Township> {
        townships_numbered_in(left).find(|&township| {
            let found = self.table_of(township).map(|lots| readings(Some(lots)));
            found.is_some_and(|found| only_township(&found) == Some(township))
        })
    }
}

/// Returns the places that begin in a part of a text, counted from its beginning.
fn moved(aside: &[Range<usize>], part: Range<usize>) -> Vec<Range<usize>> {
    aside
        .iter()
        .filter(|place| part.contains(&place.start))
        .map(|place| place.start - part.start..place.end - part.start)
        .collect()
}

/// Returns the parts of a text that has spaces in these places. Each place is in a part: one between
/// two parts is in the second one if only white space follows it there, and otherwise in the first one.
fn parts_without(left: &str, aside: &[Range<usize>]) -> Result<Vec<Range<usize>>, Refused> {
    let mut parts = parts_of(left)?;
    for index in 1..parts.len() {
        let between = parts[index - 1].end..parts[index].start;
        // The separator of the two, such as `;`, ends here.
        let separated = between.start + left[between.clone()].trim_end().len();
        for place in aside.iter().filter(|place| between.contains(&place.start)) {
            if place.end <= separated {
                parts[index - 1].end = place.end;
            } else {
                parts[index].start = parts[index].start.min(place.start);
            }
        }
    }
    Ok(parts)
}

/// Returns the parts of a text that is not written as descriptions are.
fn parts_of(left: &str) -> Result<Vec<Range<usize>>, Refused> {
    match split(left) {
        Ok(parts) => Ok(parts.iter().map(|part| part.start..part.end).collect()),
        Err(refused) if is_headless(&refused) => Ok(std::iter::once(0..left.len()).collect()),
        Err(refused) => Err(refused),
    }
}

/// Returns whether a text can't be split because land is before its first heading.
fn is_headless(refused: &Refused) -> bool {
    refused.number == ffi::REFUSAL_SPLIT_NO_HEADING
}

/// Returns the township in the first heading of a text, which land may precede, if there is one.
fn township_in(left: &str) -> Option<Township> {
    let start = match split(left) {
        Err(refused) if is_headless(&refused) => usize::try_from(refused.at).ok()?,
        _ => 0,
    };
    township_in_heading(left.get(start..)?).ok()
}

/// Returns an iterator over the townships whose number and range are next to each other in a text, on all
/// sides.
fn townships_numbered_in(left: &str) -> impl Iterator<Item = Township> {
    let numbers: Vec<u8> = left
        .split(|each: char| !each.is_ascii_digit())
        .filter_map(|digits| digits.parse().ok())
        .collect();
    let sides = [
        (NorthSouth::North, EastWest::East),
        (NorthSouth::North, EastWest::West),
        (NorthSouth::South, EastWest::East),
        (NorthSouth::South, EastWest::West),
    ];
    let pairs = (1..numbers.len()).map(move |index| (numbers[index - 1], numbers[index]));
    pairs.flat_map(move |(number, range)| {
        sides
            .into_iter()
            .filter_map(move |(north_south, east_west)| {
                Township::new(number, north_south, range, east_west)
            })
    })
}

/// Returns the township in the headings of readings, if all of them have the same one.
fn only_township(found: &Suggestion) -> Option<Township> {
    let mut townships = found
        .readings
        .iter()
        .map(|reading| township_in_heading(&reading.text).ok());
    let first = townships.next()??;
    townships
        .all(|township| township == Some(first))
        .then_some(first)
}
