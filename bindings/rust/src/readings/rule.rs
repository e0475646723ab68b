//! The rules by which readings change a text.

/// A rule by which a reading changes a text. `docs/DESCRIPTIONS.md` shows what each does.
#[derive(Clone, Copy, Debug, PartialEq, Eq, Hash)]
#[cfg_attr(feature = "serde", derive(serde::Serialize, serde::Deserialize))]
#[non_exhaustive]
pub enum Rule {
    /// A half is written `1/2`.
    Half,
    /// A quarter is written `1/4`.
    Quarter,
    /// A word for a side or a corner is written as its letters.
    Direction,
    /// A word for a number is written in digits.
    Numeral,
    /// A number that the text contains elsewhere is written where it belongs.
    Copied,
    /// A step of an aliquot part is written again where it belongs, too.
    CopiedStep,
    /// A digit is written for a letter that scanning made of it, or a letter for a digit.
    Damage,
    /// What follows is what the land is without.
    Exception,
    /// The zeros before a number are left out.
    Zeros,
    /// The fraction digit of a register is left out: a 0 after the number of a township or a range.
    FractionDigit,
    /// The township and range are written `T. 2 N., R. 3 W.`
    Heading,
    /// The word for a section is written `sec.`, or `secs.` for several
    SectionWord,
    /// The word for lots is written `lot` or `lots`.
    LotWord,
    /// A hyphen or a dash between numbers is written `thru`.
    Through,
    /// An ampersand is written `and`.
    And,
    /// A comma is written between parts, before them, or after a heading.
    Comma,
    /// A semicolon is written between one section, with its parts, and another.
    Semicolon,
    /// White space within a part is left out.
    OnePart,
    /// A mark that means nothing is left out.
    Mark,
    /// A word that means nothing is left out.
    Word,
    /// Parentheses that repeat what is before them are left out.
    Repeated,
    /// A section is left out where it follows its land, and written before it.
    MovedSection,
    /// A township and range are left out, and written at the beginning.
    MovedHeading,
    /// The meridian, the state, or the county is left out.
    Meridian,
    /// Stated acreage is left out.
    Acreage,
    /// A label, which is not land, is left out.
    Label,
    /// A phrase is left out that the caller says is not land, before the text is read.
    SetAside,
}

/// The rules of the library, in the order of their numbers, which begin with 1.
const RULES: [Rule; 26] = [
    Rule::Half,
    Rule::Quarter,
    Rule::Direction,
    Rule::Numeral,
    Rule::Copied,
    Rule::CopiedStep,
    Rule::Damage,
    Rule::Exception,
    Rule::Zeros,
    Rule::FractionDigit,
    Rule::Heading,
    Rule::SectionWord,
    Rule::LotWord,
    Rule::Through,
    Rule::And,
    Rule::Comma,
    Rule::Semicolon,
    Rule::OnePart,
    Rule::Mark,
    Rule::Word,
    Rule::Repeated,
    Rule::MovedSection,
    Rule::MovedHeading,
    Rule::Meridian,
    Rule::Acreage,
    Rule::Label,
];

impl Rule {
    /// Returns the rule with a number.
    pub(super) fn of(number: u32) -> Rule {
        let index = usize::try_from(number).unwrap_or(0).wrapping_sub(1);
        match RULES.get(index) {
            Some(rule) => *rule,
            None => panic!("the library answered with rule {number}, which is unknown here"),
        }
    }
}

#[cfg(test)]
mod tests {
    use super::super::header::assert_numbered;
    use super::*;

    #[test]
    fn numbers_are_those_of_the_header() {
        for (number, rule) in (1..).zip(RULES) {
            assert_eq!(Rule::of(number), rule);
        }
        assert_numbered("TOWNSHIP_RULE", &RULES);
    }

    #[test]
    #[should_panic(expected = "rule 27, which is unknown here")]
    fn unknown_rule() {
        Rule::of(27);
    }
}
