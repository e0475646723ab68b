//! Phrases that are not land because the caller says so.

use std::ops::Range;

use super::size;
use crate::answer::{out_of_memory, Fault, Verdict};
use crate::ffi::{self, Answer, Stretch};
use crate::refused::{refused_in, Refusal, Refused};

/// What phrases are called in an explanation.
const PHRASES: &str = "phrases";

const NAMES_LAND: &str =
    "can't be left out: it names, excepts, or limits land, or contains a number \
                          that could be that of a section";

const TOO_LARGE: &str = "there are more than 65,536 phrases, or they have more than 65,536 bytes";

/// The room for places in a first call.
const USUAL_PLACES: usize = 64;

/// Phrases that you know are not land, such as the labels of your office: [`suggest_without`] leaves
/// them out.
///
/// They are checked when they are made. A phrase is found in uppercase or lowercase, as whole words.
/// At each place, the first phrase counts: put longer phrases before shorter ones.
///
/// [`suggest_without`]: crate::suggest_without
#[derive(Clone, Debug, PartialEq, Eq, Hash)]
#[cfg_attr(feature = "serde", derive(serde::Serialize, serde::Deserialize))]
#[cfg_attr(
    feature = "serde",
    serde(try_from = "Vec<String>", into = "Vec<String>")
)]
pub struct Phrases {
    phrases: Vec<String>,
    /// The bytes of all phrases in a row, and the offsets between them.
    bytes: Vec<u8>,
    offsets: Vec<usize>,
}

impl Phrases {
    /// Makes phrases. They are refused if one of them names, excepts, or limits land (51), or if there
    /// are too many (50). `at` is then the number of the phrase, from 1, or the limit;
    /// `docs/PHRASES.md` has examples.
    ///
    /// ```
    /// let refused = township::Phrases::new(["Kestrel", "Lot 3"]).unwrap_err();
    /// assert_eq!((refused.number, refused.at), (51, 2));
    /// ```
    pub fn new<P: Into<String>>(phrases: impl IntoIterator<Item = P>) -> Result<Phrases, Refused> {
        let made = Phrases::unchecked(phrases.into_iter().map(Into::into).collect());
        made.check().map_err(|fault| {
            let sentence = match made.refused_phrase(fault) {
                Some(phrase) => format!("`{phrase}` (phrase {}) {NAMES_LAND}", fault.refusal.at),
                None => TOO_LARGE.to_owned(),
            };
            refused_in(PHRASES, "", fault, None, sentence)
        })?;
        Ok(made)
    }

    /// Makes phrases of the lines of a text. White space around a phrase and empty lines are ignored.
    /// If a phrase is refused, the refusal has its line.
    ///
    /// ```
    /// let phrases = township::Phrases::from_lines("Payout group Kestrel\n\n  Unit 7\n")?;
    /// assert_eq!(phrases.as_slice(), ["Payout group Kestrel", "Unit 7"]);
    ///
    /// let refused = township::Phrases::from_lines("Kestrel\n\n  Lot 3\n").unwrap_err();
    /// assert_eq!((refused.number, refused.at, refused.line), (51, 2, Some(3)));
    /// # Ok::<(), township::Refused>(())
    /// ```
    pub fn from_lines(text: &str) -> Result<Phrases, Refused> {
        let places = places_of_lines(text);
        let phrases = places.iter().map(|place| text[place.clone()].to_owned());
        let made = Phrases::unchecked(phrases.collect());
        made.check()
            .map_err(|fault| match made.refused_phrase(fault) {
                Some(phrase) => {
                    let place = places[size(fault.refusal.at.into()) - 1].clone();
                    let sentence = format!("`{phrase}` {NAMES_LAND}");
                    refused_in(PHRASES, text, fault, Some(place), sentence)
                }
                None => refused_in(PHRASES, text, fault, None, TOO_LARGE.to_owned()),
            })?;
        Ok(made)
    }

    /// Returns the phrases.
    pub fn as_slice(&self) -> &[String] {
        &self.phrases
    }

    fn unchecked(phrases: Vec<String>) -> Phrases {
        let mut offsets = vec![0];
        let mut bytes = Vec::new();
        for phrase in &phrases {
            bytes.extend_from_slice(phrase.as_bytes());
            offsets.push(bytes.len());
        }
        Phrases {
            phrases,
            bytes,
            offsets,
        }
    }

    fn check(&self) -> Result<(), Fault> {
        self.find(&[], &mut []).accepted().map(|_| ())
    }

    fn find(&self, text: &[u8], found: &mut [Stretch]) -> Answer {
        ffi::set_aside(text, &self.bytes, &self.offsets, found)
    }

    /// Returns the phrase that is refused, or `None` if all of them together are.
    fn refused_phrase(&self, fault: Fault) -> Option<&str> {
        let Refusal { number, at } = fault.refusal;
        let names_land = number == ffi::REFUSAL_PHRASES_NAMES_LAND;
        names_land.then(|| self.phrases[size(at.into()) - 1].as_str())
    }

    /// Returns where the phrases are in a text, from left to right.
    pub(crate) fn places_in(&self, text: &[u8]) -> Vec<Range<usize>> {
        let mut found = vec![Stretch::BLANK; USUAL_PLACES];
        let mut answer = self.find(text, &mut found);
        if answer.verdict() == Verdict::NoRoom {
            found = vec![Stretch::BLANK; size(answer.length)];
            answer = self.find(text, &mut found);
        }
        match answer.verdict() {
            Verdict::Accepted => found[..size(answer.length)]
                .iter()
                .map(|stretch| size(stretch.start)..size(stretch.end))
                // White space can be a phrase, too. It is no more than the space that is written over it.
                .filter(|place| !text[place.clone()].iter().all(u8::is_ascii_whitespace))
                .collect(),
            Verdict::NoMemory => out_of_memory(),
            verdict => {
                unreachable!("the phrases were accepted, and the library answered {verdict:?}")
            }
        }
    }
}

/// Returns where the lines of a text are, without the white space around them. Empty ones are left out.
fn places_of_lines(text: &str) -> Vec<Range<usize>> {
    let mut end = 0;
    let mut places = Vec::new();
    for line in text.split_inclusive('\n') {
        end += line.len();
        let start = end - line.trim_start().len();
        let phrase = line.trim();
        if !phrase.is_empty() {
            places.push(start..start + phrase.len());
        }
    }
    places
}

impl From<Phrases> for Vec<String> {
    fn from(phrases: Phrases) -> Vec<String> {
        phrases.phrases
    }
}

impl TryFrom<Vec<String>> for Phrases {
    type Error = Refused;

    fn try_from(phrases: Vec<String>) -> Result<Phrases, Refused> {
        Phrases::new(phrases)
    }
}
