//! The assumptions of readings that a text does not state.

use std::fmt;

/// What a reading, or a change of it, assumes that the text does not state.
#[derive(Clone, Copy, Debug, PartialEq, Eq, Hash)]
#[cfg_attr(feature = "serde", derive(serde::Serialize, serde::Deserialize))]
#[non_exhaustive]
pub enum Assumption {
    /// The meridian, the state, or the county that is left out is that of the plat.
    SameMeridian,
    /// The acreage that is left out is right: it is not compared.
    SameAcreage,
    /// The text that is left out is not land.
    NotLand,
    /// The text that is left out repeats what is before it.
    SaidBefore,
    /// A letter or a digit in the words around the change is wrong: it was misread, or there is a
    /// slip of the pen.
    WrongLetter,
    /// No comma is missing in the words around the change: they are one part.
    NoMissingComma,
    /// A phrase is not land, since the caller says so.
    SetAside,
    /// The plat has the standard lots, since nothing says which lots it has. No change assumes this, but
    /// a reading may: see [`Reading::assumes_standard_lots`].
    ///
    /// [`Reading::assumes_standard_lots`]: crate::Reading::assumes_standard_lots
    StandardLots,
}

/// What the caller says of a phrase that is left out, of which the library knows nothing.
const SET_ASIDE: &str = "you said that this is not land";

/// What a reading assumes for which no plat is known, of which the library knows nothing, either.
const STANDARD_LOTS: &str = "the plat has the standard lots";

/// The assumptions of the library, in the order of their numbers, which begin with 1.
const ASSUMPTIONS: [Assumption; 6] = [
    Assumption::SameMeridian,
    Assumption::SameAcreage,
    Assumption::NotLand,
    Assumption::SaidBefore,
    Assumption::WrongLetter,
    Assumption::NoMissingComma,
];

impl Assumption {
    /// Returns the assumption in words.
    pub fn words(self) -> &'static str {
        match self {
            Assumption::SameMeridian => "the meridian, state, or county is that of the plat",
            Assumption::SameAcreage => "the acreage is not compared",
            Assumption::NotLand => "this is not land",
            Assumption::SaidBefore => "this repeats what is before it",
            Assumption::WrongLetter => "a letter or digit is wrong",
            Assumption::NoMissingComma => "no comma is missing",
            Assumption::SetAside => SET_ASIDE,
            Assumption::StandardLots => STANDARD_LOTS,
        }
    }

    /// Returns the assumption with a number, or `None` for 0.
    pub(super) fn of(number: u32) -> Option<Assumption> {
        let index = usize::try_from(number)
            .unwrap_or(usize::MAX)
            .checked_sub(1)?;
        match ASSUMPTIONS.get(index) {
            Some(assumption) => Some(*assumption),
            None => panic!("the library answered with assumption {number}, which is unknown here"),
        }
    }
}

impl fmt::Display for Assumption {
    fn fmt(&self, to: &mut fmt::Formatter<'_>) -> fmt::Result {
        to.write_str(self.words())
    }
}

#[cfg(test)]
mod tests {
    use super::super::header::assert_numbered;
    use super::*;

    #[test]
    fn numbers_are_those_of_the_header() {
        assert_eq!(Assumption::of(0), None);
        for (number, assumption) in (1..).zip(ASSUMPTIONS) {
            assert_eq!(Assumption::of(number), Some(assumption));
        }
        assert_numbered("TOWNSHIP_ASSUMES", &ASSUMPTIONS);
    }

    #[test]
    #[should_panic(expected = "assumption 7, which is unknown here")]
    fn unknown_assumption() {
        Assumption::of(7);
    }
}
