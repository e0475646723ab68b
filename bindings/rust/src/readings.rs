//! Readings: what a text that is not written as descriptions are may mean, as descriptions.

mod aside;
mod assumption;
#[cfg(test)]
mod header;
mod parts;
mod phrases;
mod rule;
mod standard_lots;
mod unread;

pub use self::aside::suggest_without;
pub use self::assumption::Assumption;
pub use self::parts::PartReadings;
pub use self::phrases::Phrases;
pub use self::rule::Rule;
pub use self::unread::{Unread, Ways};

pub(crate) use self::aside::readings_without;

use crate::answer::{out_of_memory, Verdict};
use crate::ffi;

/// The room for changes and for bytes in a first call. It is enough for all but long texts.
const USUAL_CHANGES: usize = 64;
const USUAL_BYTES: usize = 2048;

/// The readings of a text, or why it has none.
#[derive(Clone, Debug, PartialEq, Eq, Hash)]
#[cfg_attr(feature = "serde", derive(serde::Serialize, serde::Deserialize))]
#[non_exhaustive]
pub struct Suggestion {
    /// The readings, in a fixed order: at most 8. There are none if nothing about the text is
    /// certain, or if lots and aliquot parts can't describe the land.
    pub readings: Vec<Reading>,
    /// Why lots and aliquot parts can't describe the land.
    pub beyond: Option<Beyond>,
    /// If there are no readings: the words that are not understood, and then the phrases that can be
    /// read in two ways, each from left to right.
    pub unread: Vec<Unread>,
}

/// Why lots and aliquot parts can't describe the land of a text.
#[derive(Clone, Debug, PartialEq, Eq, Hash)]
#[cfg_attr(feature = "serde", derive(serde::Serialize, serde::Deserialize))]
#[non_exhaustive]
pub struct Beyond {
    /// The phrase that says so: where it begins in the text, in bytes.
    pub start: usize,
    /// Where it ends.
    pub end: usize,
    /// The reason, such as `a portion needs a survey`.
    pub reason: String,
}

/// A reading of a text: the description, and the changes from which it comes.
///
/// Functions that take a description take a reading, too.
#[derive(Clone, Debug, PartialEq, Eq, Hash)]
#[cfg_attr(feature = "serde", derive(serde::Serialize, serde::Deserialize))]
#[non_exhaustive]
pub struct Reading {
    /// The description.
    pub text: String,
    /// The changes of the text, from left to right.
    pub changes: Vec<Change>,
    /// How the description comes of the changed text.
    pub manner: Manner,
    /// Whether the reading assumes that the plat has the standard lots, because no plat and no lot
    /// table say which lots it has: [`Assumption::StandardLots`]. Only readings that depend on the lots
    /// do: those that name lots or a whole section, and those that are the canonical description of
    /// their land.
    #[cfg_attr(feature = "serde", serde(default))]
    pub assumes_standard_lots: bool,
}

/// How the description of a reading comes of the changed text.
#[derive(Clone, Copy, Debug, PartialEq, Eq, Hash)]
#[cfg_attr(feature = "serde", derive(serde::Serialize, serde::Deserialize))]
#[non_exhaustive]
pub enum Manner {
    /// It is the changed text.
    Changed,
    /// It is the canonical description of the land of the changed text, in which an aliquot part
    /// includes lots: they are named in its place.
    LotsNamed,
    /// It is the canonical description of the land before `except`, without the land after it.
    Remainder,
}

/// A change that a reading makes: it leaves out some bytes of the text, and writes others in their
/// place.
#[derive(Clone, Debug, PartialEq, Eq, Hash)]
#[cfg_attr(feature = "serde", derive(serde::Serialize, serde::Deserialize))]
#[non_exhaustive]
pub struct Change {
    /// Where the bytes that are left out begin in the text.
    pub start: usize,
    /// Where they end.
    pub end: usize,
    /// What is written in their place.
    pub written: String,
    /// The rule by which this is done.
    pub rule: Rule,
    /// What it assumes that the text does not state, if anything.
    pub assumes: Option<Assumption>,
}

/// Suggests how a text would be written as a description, without a plat.
///
/// Without a plat, its lots are not known. A reading that depends on them says that it assumes the
/// standard lots, which are those of any [`Plat`]. With a lot table, call [`Lots::suggest`]; for land in
/// several townships, [`Plats::suggest`].
///
/// [`Lots::suggest`]: crate::Lots::suggest
/// [`Plat`]: crate::Plat
/// [`Plats::suggest`]: crate::Plats::suggest
///
/// ```
/// # let notes = include_bytes!(concat!(env!("TOWNSHIP_FILES"), "/samples/b1.csv"));
/// # let plat = township::Plat::read(notes)?;
/// let found = township::suggest("sec. 14: NE¼NE¼ SW¼SW¼");
/// assert_eq!(found.readings[0].text, "sec. 14: NE¼NE¼, SW¼SW¼");
/// assert_eq!(found.readings[1].text, "sec. 14: NE¼NE¼SW¼SW¼");
/// assert_eq!(plat.acres(&found.readings[0])?.to_string(), "80.00");
/// assert_eq!(plat.acres(&found.readings[1])?.to_string(), "2.50");
///
/// let none = township::suggest("sec. 14, that portion of the NE/4 lying north of the road");
/// assert!(none.readings.is_empty());
/// assert_eq!(none.beyond.unwrap().reason, "a portion needs a survey");
///
/// let text = "NE/4 Sec 9 by the old mill";
/// let unread = township::suggest(text).unread;
/// assert_eq!(&text[unread[0].start..unread[0].end], "by the old mill");
/// # Ok::<(), township::Refused>(())
/// ```
pub fn suggest(text: impl AsRef<[u8]>) -> Suggestion {
    readings_of(text.as_ref(), None).with_standard_lots()
}

/// Returns the readings of a text on the plat of a lot table, or else with the standard lots.
fn readings_of(text: &[u8], lots: Option<&ffi::Lots>) -> Suggestion {
    let data = Data::with_room(text, lots, USUAL_CHANGES, USUAL_BYTES)
        .or_else(|said| Data::with_room(text, lots, size(said.changes), size(said.bytes)));
    match data {
        Ok(data) => data.suggestion(text),
        Err(said) => unreachable!("there was room for all of {said:?}"),
    }
}

impl Reading {
    /// Returns an iterator over the changes that assume something that the text does not say.
    ///
    /// ```
    /// let found = township::suggest("Sec. 14: NE¼, Boise Meridian");
    /// let assumed: Vec<_> = found.readings[0].assumptions().map(|change| change.assumes).collect();
    /// assert_eq!(assumed, [Some(township::Assumption::SameMeridian)]);
    /// ```
    pub fn assumptions(&self) -> impl Iterator<Item = &Change> {
        self.changes
            .iter()
            .filter(|change| change.assumes.is_some())
    }
}

impl AsRef<[u8]> for Reading {
    fn as_ref(&self) -> &[u8] {
        self.text.as_bytes()
    }
}

/// What the library writes for a text.
struct Data {
    readings: [ffi::Reading; ffi::READINGS_MOST],
    changes: Vec<ffi::Change>,
    bytes: Vec<u8>,
    said: ffi::Suggestion,
}

impl Data {
    /// Calls the library with this much room. If there is too little, returns how much there is.
    fn with_room(
        text: &[u8],
        lots: Option<&ffi::Lots>,
        changes: usize,
        bytes: usize,
    ) -> Result<Data, ffi::Suggestion> {
        let mut readings = [ffi::Reading::BLANK; ffi::READINGS_MOST];
        let mut changes = vec![ffi::Change::BLANK; changes];
        let mut bytes = vec![0; bytes];
        let (answer, said) = match lots {
            Some(lots) => ffi::lots_suggest(lots, text, &mut readings, &mut changes, &mut bytes),
            None => ffi::suggest(text, &mut readings, &mut changes, &mut bytes),
        };
        match answer.verdict() {
            Verdict::Accepted => Ok(Data {
                readings,
                changes,
                bytes,
                said,
            }),
            Verdict::NoRoom => Err(said),
            Verdict::NoMemory => out_of_memory(),
            verdict => unreachable!("the library has nothing to refuse, and answered {verdict:?}"),
        }
    }

    fn suggestion(&self, text: &[u8]) -> Suggestion {
        let readings = &self.readings[..size(self.said.readings)];
        let unread = if readings.is_empty() {
            unread::unread_in(text)
        } else {
            Vec::new()
        };
        let beyond = Beyond {
            start: size(self.said.beyond),
            end: size(self.said.beyond_end),
            reason: self.text(self.said.reason, self.said.reason_length),
        };
        Suggestion {
            readings: readings.iter().map(|data| self.reading(data)).collect(),
            beyond: (self.said.reason_length > 0).then_some(beyond),
            unread,
        }
    }

    fn reading(&self, data: &ffi::Reading) -> Reading {
        let changes = &self.changes[size(data.changes)..][..size(data.changes_length)];
        Reading {
            text: self.text(data.text, data.text_length),
            changes: changes.iter().map(|data| self.change(data)).collect(),
            manner: Manner::of(data.manner),
            assumes_standard_lots: false,
        }
    }

    fn change(&self, data: &ffi::Change) -> Change {
        Change {
            start: size(data.start),
            end: size(data.end),
            written: self.text(data.written, data.written_length),
            rule: Rule::of(data.rule),
            assumes: Assumption::of(data.assumes),
        }
    }

    /// Returns a text from the bytes. All texts that the library writes are UTF-8.
    fn text(&self, start: u64, length: u64) -> String {
        String::from_utf8_lossy(&self.bytes[size(start)..][..size(length)]).into_owned()
    }
}

impl Manner {
    fn of(number: u32) -> Manner {
        match number {
            ffi::CHANGED => Manner::Changed,
            ffi::LOTS_NAMED => Manner::LotsNamed,
            ffi::REMAINDER => Manner::Remainder,
            unknown => panic!("the library answered with manner {unknown}, which is unknown here"),
        }
    }
}

/// Returns a place or a length of what is in memory.
fn size(number: u64) -> usize {
    usize::try_from(number).expect("what was in memory fits there")
}
