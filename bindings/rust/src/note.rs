//! Notes on places of an accepted description that can be read in two ways.

use crate::explanation::Explained;
use crate::ffi::Answer;
use std::fmt;
use std::ops::Range;

/// A note on a place of an accepted description that can be read in two ways.
///
/// It is displayed as the place and the sentence of its text, on one line.
///
/// ```
/// # let notes = include_bytes!(concat!(env!("TOWNSHIP_FILES"), "/samples/b1.csv"));
/// # let plat = township::Plat::read(notes)?;
/// let notes = plat.notes("sec. 14, NE1/4 SE1/4.")?;
/// assert_eq!(notes.len(), 1);
/// assert_eq!((notes[0].line, notes[0].column), (1, 16));
/// assert_eq!(notes[0].span, 15..20);
/// assert_eq!(notes[0].text, "\
/// township: description:1:16: note: NE1/4 SE1/4 is read as one part of 40.00 acres, the NE1/4 of the
///   SE1/4; if two parts were meant, write a comma after NE1/4 (320.00 acres)
///   1 | sec. 14, NE1/4 SE1/4.
///     |                ^^^^^
/// ");
/// # Ok::<(), township::Refused>(())
/// ```
#[derive(Clone, Debug, PartialEq, Eq, Hash)]
#[cfg_attr(feature = "serde", derive(serde::Serialize, serde::Deserialize))]
#[non_exhaustive]
pub struct Note {
    /// The line of the place, counted from 1.
    pub line: u32,
    /// The column, in characters, counted from 1.
    pub column: u32,
    /// The note, in the form that the program `township` prints on standard error.
    pub text: String,
    /// The bytes of the description that the note is about.
    pub span: Range<usize>,
    message: String,
    sentence: String,
}

impl Note {
    /// Returns the note beside the answer that accepts a description, or nothing.
    pub(crate) fn beside(answer: Answer, explained: Explained) -> Vec<Note> {
        let Some(span) = explained.span.clone() else {
            return Vec::new();
        };
        vec![Note {
            line: answer.line,
            column: answer.column,
            span,
            message: explained.message(),
            sentence: explained.sentence,
            text: explained.text,
        }]
    }

    /// Returns both readings of the place, with their acreage, without the location.
    ///
    /// ```
    /// # let notes = include_bytes!(concat!(env!("TOWNSHIP_FILES"), "/samples/b1.csv"));
    /// # let plat = township::Plat::read(notes)?;
    /// let notes = plat.notes("sec. 14, NE1/4 SE1/4.")?;
    /// assert!(notes[0].sentence().starts_with("NE1/4 SE1/4 is read as one part of 40.00 acres"));
    /// # Ok::<(), township::Refused>(())
    /// ```
    pub fn sentence(&self) -> String {
        self.sentence.clone()
    }
}

impl fmt::Display for Note {
    fn fmt(&self, f: &mut fmt::Formatter<'_>) -> fmt::Result {
        f.write_str(&self.message)
    }
}
