//! What is unread of a text without readings.

use std::fmt;

use super::size;
use crate::answer::{out_of_memory, Verdict};
use crate::ffi;

/// The room for unread words and phrases in a first call.
const USUAL_UNREAD: usize = 64;

/// Some bytes of a text without readings: words that are not understood, or a phrase that can be
/// read in two ways.
#[derive(Clone, Copy, Debug, PartialEq, Eq, Hash)]
#[cfg_attr(feature = "serde", derive(serde::Serialize, serde::Deserialize))]
#[non_exhaustive]
pub struct Unread {
    /// Where they begin in the text.
    pub start: usize,
    /// Where they end.
    pub end: usize,
    /// The two ways to read a phrase. `None` if the words are not understood.
    pub ways: Option<Ways>,
}

/// The two ways to read a phrase of a text without readings.
#[derive(Clone, Copy, Debug, PartialEq, Eq, Hash)]
#[cfg_attr(feature = "serde", derive(serde::Serialize, serde::Deserialize))]
#[non_exhaustive]
pub enum Ways {
    /// A section, or a half, as `S2` before any other land.
    SectionOrHalf,
    /// One more lot, or a half, as `N2` after a lot.
    LotOrHalf,
    /// A quarter, or a word for a section, as `Se` at the end.
    QuarterOrSection,
    /// The number of a section or a lot, or another figure, such as acreage.
    NumberOrFigure,
    /// The side of a range, or a half.
    RangeOrHalf,
    /// Of the part before it, or of the section: a part with `thereof`.
    PartOrSection,
}

impl Ways {
    /// Returns the two ways in words.
    pub fn words(self) -> &'static str {
        match self {
            Ways::SectionOrHalf => "a section, or a half",
            Ways::LotOrHalf => "one more lot, or a half",
            Ways::QuarterOrSection => "a quarter, or a word for a section",
            Ways::NumberOrFigure => "the number of a section or a lot, or another figure",
            Ways::RangeOrHalf => "the side of a range, or a half",
            Ways::PartOrSection => "of the part before it, or of the section",
        }
    }

    /// Returns the ways with a number, or `None` for 0.
    fn of(number: u32) -> Option<Ways> {
        match number {
            0 => None,
            ffi::WAYS_SECTION_OR_HALF => Some(Ways::SectionOrHalf),
            ffi::WAYS_LOT_OR_HALF => Some(Ways::LotOrHalf),
            ffi::WAYS_QUARTER_OR_SECTION => Some(Ways::QuarterOrSection),
            ffi::WAYS_NUMBER_OR_FIGURE => Some(Ways::NumberOrFigure),
            ffi::WAYS_RANGE_OR_HALF => Some(Ways::RangeOrHalf),
            ffi::WAYS_PART_OR_SECTION => Some(Ways::PartOrSection),
            unknown => panic!("the library answered with ways {unknown}, which are unknown here"),
        }
    }
}

impl fmt::Display for Ways {
    fn fmt(&self, f: &mut fmt::Formatter<'_>) -> fmt::Result {
        f.write_str(self.words())
    }
}

/// Returns what is unread of a text without readings.
pub(super) fn unread_in(text: &[u8]) -> Vec<Unread> {
    let mut found = vec![ffi::Stretch::BLANK; USUAL_UNREAD];
    let mut answer = ffi::unread(text, &mut found);
    if answer.verdict() == Verdict::NoRoom {
        found = vec![ffi::Stretch::BLANK; size(answer.length)];
        answer = ffi::unread(text, &mut found);
    }
    match answer.verdict() {
        Verdict::Accepted => found[..size(answer.length)]
            .iter()
            .map(of_stretch)
            .collect(),
        Verdict::NoMemory => out_of_memory(),
        verdict => unreachable!("the library has nothing to refuse, and answered {verdict:?}"),
    }
}

fn of_stretch(stretch: &ffi::Stretch) -> Unread {
    Unread {
        start: size(stretch.start),
        end: size(stretch.end),
        ways: Ways::of(stretch.ways),
    }
}
