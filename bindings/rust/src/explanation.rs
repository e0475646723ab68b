//! The parts of an explanation or of a note, as the library gives them.

use crate::ffi::{self, Answer};
use crate::text::text_by;
use std::ops::Range;

/// The beginning of every explanation.
const PROGRAM: &str = "township: ";

/// Another place that an explanation names: where the same land, name, or line was given before.
///
/// ```
/// # let notes = include_bytes!(concat!(env!("TOWNSHIP_FILES"), "/samples/b1.csv"));
/// # let plat = township::Plat::read(notes)?;
/// let description = "sec. 14, NE1/4 and N1/2.";
/// let refused = plat.acres(description).unwrap_err();
/// let other = refused.other().unwrap();
/// assert_eq!((other.record, &description[other.span.clone()]), (None, "NE1/4"));
/// # Ok::<(), township::Refused>(())
/// ```
#[derive(Clone, Debug, PartialEq, Eq, Hash)]
#[cfg_attr(feature = "serde", derive(serde::Serialize, serde::Deserialize))]
#[non_exhaustive]
pub struct OtherPlace {
    /// Its record in a list of tracts or in field notes, counted from 1. `None` in a description.
    pub record: Option<u32>,
    /// Its bytes in the input.
    pub span: Range<usize>,
}

/// An explanation or a note, and its parts.
#[derive(Clone, Debug, Default, PartialEq, Eq, Hash)]
#[cfg_attr(feature = "serde", derive(serde::Serialize, serde::Deserialize))]
pub(crate) struct Explained {
    /// The text as it was written.
    pub(crate) text: String,
    /// The name of the text that is explained, and the line and column that are given.
    pub(crate) location: String,
    /// What is wrong, or noted, on one line.
    pub(crate) sentence: String,
    /// The hints, one each.
    pub(crate) hints: Vec<String>,
    /// The only reading of a description, if the explanation ends with it.
    pub(crate) repair: Option<String>,
    /// The bytes of the input that are underlined.
    pub(crate) span: Option<Range<usize>>,
    pub(crate) other: Option<OtherPlace>,
}

/// Calls a function that explains. Returns its answer and the explanation, which is empty if there is
/// none.
pub(crate) fn explained_by(
    call: impl Fn(&mut [u8]) -> (Answer, ffi::Explanation),
) -> (Answer, Explained) {
    let mut parts = ffi::Explanation::BLANK;
    let (answer, text) = text_by(|room| {
        let (answer, written) = call(room);
        parts = written;
        answer
    });
    (answer, Explained::new(text, parts))
}

impl Explained {
    fn new(text: String, parts: ffi::Explanation) -> Explained {
        let sentence = part(&text, parts.sentence, parts.sentence_length);
        let hints = part(&text, parts.hints, parts.hints_length);
        let repair = part(&text, parts.repair, parts.repair_length);
        let head = &text[..usize_of(parts.sentence)];
        Explained {
            location: location_in(head).to_owned(),
            sentence: on_one_line(sentence),
            hints: hints_in(hints, parts.continued),
            repair: (!repair.is_empty()).then(|| repair.to_owned()),
            span: (parts.shown == ffi::SHOWN_BYTES).then(|| span(parts.start, parts.end)),
            other: (parts.has_other != 0).then(|| OtherPlace {
                record: (parts.other_record > 0).then_some(parts.other_record),
                span: span(parts.other_start, parts.other_end),
            }),
            text,
        }
    }

    /// Returns the location and the sentence, on one line.
    pub(crate) fn message(&self) -> String {
        format!("{}: {}", self.location, self.sentence)
    }
}

/// Returns the location in what is before a sentence, such as `township: notes:12: `.
fn location_in(head: &str) -> &str {
    let head = head.strip_prefix(PROGRAM).unwrap_or(head);
    head.trim_end().trim_end_matches(':')
}

/// Returns a part of a text.
fn part(text: &str, start: u64, length: u64) -> &str {
    let start = usize_of(start);
    &text[start..start + usize_of(length)]
}

/// Returns lines that continue each other as one.
fn on_one_line(lines: &str) -> String {
    let lines: Vec<&str> = lines.lines().map(str::trim).collect();
    lines.join(" ")
}

/// Returns the hints in some lines, of which some continue the line before.
fn hints_in(lines: &str, continued: u32) -> Vec<String> {
    let mut hints: Vec<String> = Vec::new();
    for (index, line) in lines.lines().map(str::trim).enumerate() {
        match hints.last_mut() {
            Some(hint) if continued >> index & 1 == 1 => {
                hint.push(' ');
                hint.push_str(line);
            }
            _ => hints.push(line.to_owned()),
        }
    }
    hints
}

fn span(start: u64, end: u64) -> Range<usize> {
    usize_of(start)..usize_of(end)
}

fn usize_of(number: u64) -> usize {
    usize::try_from(number).expect("an offset in memory fits there")
}

#[cfg(test)]
mod tests {
    use super::*;

    #[test]
    fn nothing_is_explained() {
        let nothing = Explained::new(String::new(), ffi::Explanation::BLANK);
        assert_eq!(nothing, Explained::default());
    }

    #[test]
    fn hints_on_lines_that_continue() {
        let lines = "  one\n  and more\n  two\n";
        assert_eq!(hints_in(lines, 0b010), ["one and more", "two"]);
        assert_eq!(hints_in(lines, 0b110), ["one and more two"]);
        assert_eq!(hints_in(lines, 0), ["one", "and more", "two"]);
        assert!(hints_in("", 0).is_empty());
    }

    #[test]
    fn location_is_before_the_sentence() {
        for (head, location) in [
            ("township: notes: ", "notes"),
            ("township: notes:12: ", "notes:12"),
            ("township: land.txt:1:20: ", "land.txt:1:20"),
        ] {
            assert_eq!(location_in(head), location);
        }
    }
}
