//! Refusals.

use crate::answer::Fault;
use crate::explanation::{explained_by, Explained, OtherPlace};
use crate::ffi::{self, Answer};
use std::error::Error;
use std::fmt;
use std::ops::Range;

// The name that the library uses for each text when it explains a refusal.
pub(crate) const DESCRIPTION: &str = "description";
pub(crate) const NOTES: &str = "notes";
pub(crate) const LIST: &str = "tracts";
pub(crate) const LAND: &str = "land";
pub(crate) const LOT_TABLE: &str = "lots";

/// The number and location of a refusal, displayed as `refused 67 at 19`.
#[derive(Clone, Copy, Debug, PartialEq, Eq, Hash)]
#[cfg_attr(feature = "serde", derive(serde::Serialize, serde::Deserialize))]
pub struct Refusal {
    /// The number, which says what is wrong.
    pub number: u32,
    /// The location.
    pub at: u32,
}

/// The numbered refusal of field notes, a description, a list of tracts, or a lot table.
///
/// `docs/REFUSALS.md` explains what each number means and how to correct the input. A refusal is
/// displayed as the place and the sentence of its explanation, on one line.
///
/// ```
/// # let notes = include_bytes!(concat!(env!("TOWNSHIP_FILES"), "/samples/b1.csv"));
/// # let plat = township::Plat::read(notes)?;
/// let refused = plat.acres("sec. 14, NE1/4 and N1/2.").unwrap_err();
/// assert_eq!((refused.number, refused.at), (67, 19));
/// assert_eq!((refused.line, refused.column), (Some(1), Some(20)));
/// assert_eq!(refused.to_string(), "description:1:20: this land was named before");
/// assert_eq!(refused.explanation, "\
/// township: description:1:20: this land was named before
///   1 | sec. 14, NE1/4 and N1/2.
///     |                    ^^^^
///   `NE1/4` at 1:10 overlaps it; both include sec. 14, NE1/4.
/// ");
/// assert_eq!(refused.span(), Some(19..23));
/// assert_eq!(refused.hints(), ["`NE1/4` at 1:10 overlaps it; both include sec. 14, NE1/4."]);
/// # Ok::<(), township::Refused>(())
/// ```
#[derive(Clone, Debug, PartialEq, Eq, Hash)]
#[cfg_attr(feature = "serde", derive(serde::Serialize, serde::Deserialize))]
#[non_exhaustive]
pub struct Refused {
    /// What is wrong: 1 to 11 and 21 to 23 for field notes, 41 to 44 and 61 to 68 for a
    /// description, 50 and 51 for phrases to leave out, 80 to 85 for a list of tracts, 86 to 101 for
    /// a lot table.
    pub number: u32,
    /// The location. Its meaning depends on the number: a record counted from 1, the index of a
    /// section line, a byte counted from 0, a lot, a phrase counted from 1, or, if the text is too
    /// long, the limit in bytes.
    pub at: u32,
    /// For refusal 83, the refusal of the tract's description. `None` for any other number.
    pub inner: Option<Refusal>,
    /// The line, counted from 1. `None` if the error is not on any line: for example, a record is
    /// missing.
    pub line: Option<u32>,
    /// The column, in characters, counted from 1. `None` if the line is.
    pub column: Option<u32>,
    /// The explanation, in the form that the program `township` prints on standard error.
    pub explanation: String,
    // On the heap, since a result with a refusal should be small.
    parts: Box<Explained>,
}

/// Returns the refusal of a text at a place, with a sentence that is not the library's. The span
/// begins at the place, or is `None` if the refusal has no place in the text.
pub(crate) fn refused_in(
    source: &str,
    text: &str,
    fault: Fault,
    span: Option<Range<usize>>,
    sentence: String,
) -> Refused {
    let Some(span) = span else {
        return Refused::new(fault, explained_as(source.to_owned(), sentence, None));
    };
    let before = text.get(..span.start).unwrap_or_default();
    let line = before.matches('\n').count() + 1;
    let last = before.rsplit('\n').next().unwrap_or_default();
    let column = last.chars().count() + 1;
    let location = format!("{source}:{line}:{column}");
    let mut refused = Refused::new(fault, explained_as(location, sentence, Some(span)));
    refused.line = u32::try_from(line).ok();
    refused.column = u32::try_from(column).ok();
    refused
}

fn explained_as(location: String, sentence: String, span: Option<Range<usize>>) -> Explained {
    Explained {
        text: format!("township: {location}: {sentence}\n"),
        location,
        sentence,
        span,
        ..Explained::default()
    }
}

impl Refused {
    /// Returns the refusal for a fault, with the library's explanation. Panics if memory runs out.
    pub(crate) fn explained(
        fault: Fault,
        explain: impl Fn(&mut [u8]) -> (Answer, ffi::Explanation),
    ) -> Refused {
        let (answer, explained) = explained_by(explain);
        assert_eq!(
            answer.accepted(),
            Err(fault),
            "the library explains what it refused"
        );
        Refused {
            line: counted(answer.line),
            column: counted(answer.column),
            ..Refused::new(fault, explained)
        }
    }

    /// Returns the refusal for a fault, with the library's explanation if it is of this fault: on another
    /// plat, an earlier one may be explained.
    pub(crate) fn explained_if_same(
        fault: Fault,
        explain: impl Fn(&mut [u8]) -> (Answer, ffi::Explanation),
    ) -> Refused {
        if explain(&mut []).0.is_of(fault) {
            Refused::explained(fault, explain)
        } else {
            Refused::unexplained(fault)
        }
    }

    /// Returns the refusal for a fault that is on no line.
    pub(crate) fn new(fault: Fault, mut explained: Explained) -> Refused {
        Refused {
            number: fault.refusal.number,
            at: fault.refusal.at,
            inner: fault.inner,
            line: None,
            column: None,
            explanation: std::mem::take(&mut explained.text),
            parts: Box::new(explained),
        }
    }

    /// Returns the refusal of a record of a list, with a sentence that is not the library's.
    pub(crate) fn of_record(fault: Fault, list: &str, record: usize, sentence: String) -> Refused {
        let location = format!("{list}: record {record}");
        Refused::new(fault, explained_as(location, sentence, None))
    }

    /// Returns this refusal, which is on no line, as that of a source with this name.
    pub(crate) fn of_source(&self, source: &str) -> Refused {
        let fault = Fault {
            refusal: Refusal {
                number: self.number,
                at: self.at,
            },
            inner: self.inner,
        };
        Refused::new(
            fault,
            explained_as(source.to_owned(), self.sentence(), None),
        )
    }

    /// Returns this refusal with one more hint at the end of its explanation.
    pub(crate) fn with_hint(mut self, hint: String) -> Refused {
        self.explanation.push_str(&format!("  {hint}\n"));
        self.parts.hints.push(hint);
        self
    }

    /// Returns the refusal for a fault, without an explanation.
    pub(crate) fn unexplained(fault: Fault) -> Refused {
        Refused::new(fault, Explained::default())
    }

    /// Returns the refusal without the bytes of the input that it underlines, and those of the other
    /// place.
    pub(crate) fn without_bytes(mut self) -> Refused {
        self.parts.span = None;
        self.parts.other = None;
        self
    }

    /// Returns the bytes of the input that the explanation underlines. `None` if it underlines none.
    pub fn span(&self) -> Option<Range<usize>> {
        self.parts.span.clone()
    }

    /// Returns the other place that the explanation names, where the same land, name, or line was given
    /// before.
    pub fn other(&self) -> Option<&OtherPlace> {
        self.parts.other.as_ref()
    }

    /// Returns how to correct the input, or related facts.
    pub fn hints(&self) -> &[String] {
        &self.parts.hints
    }

    /// Returns the only reading of a description, if the explanation ends with it. It names land on
    /// the plat.
    ///
    /// ```
    /// # let notes = include_bytes!(concat!(env!("TOWNSHIP_FILES"), "/samples/b1.csv"));
    /// # let plat = township::Plat::read(notes)?;
    /// let refused = plat.acres("sec. 14, NE/4.").unwrap_err();
    /// assert_eq!(refused.repair(), Some("sec. 14, NE1/4."));
    /// # Ok::<(), township::Refused>(())
    /// ```
    pub fn repair(&self) -> Option<&str> {
        self.parts.repair.as_deref()
    }

    /// Returns what is wrong, without the location.
    ///
    /// ```
    /// # let notes = include_bytes!(concat!(env!("TOWNSHIP_FILES"), "/samples/b1.csv"));
    /// # let plat = township::Plat::read(notes)?;
    /// let refused = plat.acres("sec. 5, lot 5.").unwrap_err();
    /// assert_eq!(refused.to_string(), "description:1:13: section 5 has lots 1 to 4");
    /// assert_eq!(refused.sentence(), "section 5 has lots 1 to 4");
    /// # Ok::<(), township::Refused>(())
    /// ```
    pub fn sentence(&self) -> String {
        if self.parts.sentence.is_empty() {
            return self.to_string();
        }
        self.parts.sentence.clone()
    }
}

/// Converts a line or column from the library, which uses 0 for none.
fn counted(from_one: u32) -> Option<u32> {
    (from_one > 0).then_some(from_one)
}

impl fmt::Display for Refusal {
    fn fmt(&self, f: &mut fmt::Formatter<'_>) -> fmt::Result {
        write!(f, "refused {} at {}", self.number, self.at)
    }
}

impl fmt::Display for Refused {
    fn fmt(&self, f: &mut fmt::Formatter<'_>) -> fmt::Result {
        if self.parts.sentence.is_empty() {
            return write!(f, "refused {} at {}", self.number, self.at);
        }
        f.write_str(&self.parts.message())
    }
}

impl Error for Refused {}

#[cfg(test)]
mod tests {
    use super::*;
    use crate::ffi::{ACCEPTED, NO_MEMORY, REFUSED};

    const OVERLAP: Refusal = Refusal { number: 67, at: 19 };

    const FAULT: Fault = Fault {
        refusal: OVERLAP,
        inner: None,
    };

    /// Explains the refusal `OVERLAP` by an answer with these values.
    fn told(verdict: u32, number: u32, at: u32) -> Refused {
        let answer = Answer {
            verdict,
            number,
            at,
            ..Answer::BLANK
        };
        Refused::explained(FAULT, |_| (answer, ffi::Explanation::BLANK))
    }

    #[test]
    fn without_an_explanation() {
        let refused = Refused::new(FAULT, Explained::default());
        assert_eq!(refused.to_string(), "refused 67 at 19");
        assert_eq!(refused.sentence(), "refused 67 at 19");
    }

    #[test]
    fn sentence_comes_after_the_place() {
        let refused = Refused::new(
            FAULT,
            Explained {
                location: "tracts:2:23".to_owned(),
                sentence: "tract `A`: twice".to_owned(),
                ..Explained::default()
            },
        );
        assert_eq!(refused.to_string(), "tracts:2:23: tract `A`: twice");
        assert_eq!(refused.sentence(), "tract `A`: twice");
    }

    #[test]
    fn fault_on_no_line() {
        let refused = Refused::new(FAULT, Explained::default());
        assert_eq!(told(REFUSED, 67, 19), refused);
    }

    #[test]
    #[should_panic(expected = "township: out of memory")]
    fn memory_that_ran_out() {
        told(NO_MEMORY, 0, 0);
    }

    #[test]
    #[should_panic(expected = "the library explains what it refused")]
    fn refused_and_then_accepted() {
        told(ACCEPTED, 0, 0);
    }
}
