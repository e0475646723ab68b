//! Sentences for the refusals of texts that spell no township, which the library does not explain.

use crate::answer::Fault;
use crate::refused::{refused_in, Refusal, Refused};

/// The name of the text in an explanation.
const TOWNSHIP: &str = "township";

/// The number of the refusal of a text that is too long, which has no place in the text.
const TOO_LARGE: u32 = 36;

/// The most characters of a text that a sentence shows.
const SHOWN_MOST: usize = 60;

/// The white space that a spelling can have.
const WHITE: [char; 6] = [' ', '\t', '\n', '\u{b}', '\u{c}', '\r'];

/// Returns the refusal of a text that spells no township, with its explanation.
pub(crate) fn refused_township(fault: Fault, text: &str) -> Refused {
    let Refusal { number, at } = fault.refusal;
    if number == TOO_LARGE {
        let sentence = format!("the text is longer than {at} bytes");
        return refused_in(TOWNSHIP, text, fault, None, sentence);
    }
    // The place is the beginning of a token, or the end of the text.
    let at = usize::try_from(at).expect("a place is in the text");
    let sentence = sentence_of(number, text.get(at..).unwrap_or_default(), text);
    refused_in(TOWNSHIP, text, fault, Some(at..text.len()), sentence)
}

/// Returns what is wrong. A library that is newer than this crate may refuse for something else.
fn sentence_of(number: u32, rest: &str, text: &str) -> String {
    let expected = match number {
        31 => "the township number, 1 to 99",
        32 => "N or S",
        33 => "the range, as in R. 3 W.",
        34 => "E or W",
        35 => "nothing after the township",
        _ => "a township, as in T. 2 N., R. 3 W.",
    };
    let rest = shortened(rest);
    if !rest.is_empty() {
        return format!("unexpected `{rest}`; expected {expected}");
    }
    if text.trim().is_empty() {
        return "the township is missing".to_owned();
    }
    format!("incomplete township: expected {expected}")
}

/// Returns a text on one line, without white space around it and without its end if it is long. A character
/// that can't be printed, such as a no-break space, is shown by its number.
fn shortened(text: &str) -> String {
    let words: Vec<&str> = text.split(WHITE).filter(|word| !word.is_empty()).collect();
    let line: String = words.join(" ").chars().map(shown).collect();
    match line.char_indices().nth(SHOWN_MOST) {
        Some((end, _)) => format!("{} ..", &line[..end]),
        None => line,
    }
}

/// Returns a character, or its number if it can't be printed.
fn shown(character: char) -> String {
    if matches!(character, '\'' | '"' | '\\') || character.escape_debug().count() == 1 {
        character.to_string()
    } else {
        format!("\\u{{{:X}}}", u32::from(character))
    }
}

#[cfg(test)]
mod tests {
    use super::*;

    fn refused(number: u32, at: u32, text: &str) -> String {
        let fault = Fault {
            refusal: Refusal { number, at },
            inner: None,
        };
        refused_township(fault, text).to_string()
    }

    #[test]
    fn each_refusal_of_a_township_has_a_sentence() {
        for number in 31..=35 {
            let unknown =
                "township:1:1: unexpected `x`; expected a township, as in T. 2 N., R. 3 W.";
            assert_ne!(refused(number, 0, "x"), unknown);
        }
        assert_eq!(
            refused(36, 65_536, ""),
            "township: the text is longer than 65536 bytes"
        );
        assert_eq!(refused(31, 1, " "), "township:1:2: the township is missing");
        assert_eq!(
            refused(33, 4, "T2N\n"),
            "township:2:1: incomplete township: expected the range, as in R. 3 W."
        );
    }

    #[test]
    fn characters_that_cannot_be_printed_are_shown_by_their_numbers() {
        assert_eq!(
            refused(33, 3, "T2N\u{a0}R3W"),
            "township:1:4: unexpected `\\u{A0}R3W`; expected the range, as in R. 3 W."
        );
        assert_eq!(
            refused(35, 5, "2N-3W \u{1b}\"[31m\u{e9}"),
            "township:1:6: unexpected `\\u{1B}\"[31m\u{e9}`; expected nothing after the township"
        );
    }

    #[test]
    fn long_texts_are_shortened() {
        let found = refused(35, 6, &format!("2N-3W {}", "\u{e9} ".repeat(100)));
        assert!(
            found.ends_with(" ..`; expected nothing after the township"),
            "{found}"
        );
    }
}
