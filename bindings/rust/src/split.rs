//! The descriptions of the townships in a text.

use crate::answer::{out_of_memory, Fault, Verdict};
use crate::ffi;
use crate::refused::{refused_in, Refusal, Refused, DESCRIPTION};
use crate::township::Township;
use crate::township_faults::refused_township;

/// The room for parts in a first call.
const USUAL_PARTS: usize = 64;

/// The part of a text that is about one township. See [`split`].
#[derive(Clone, Copy, Debug, PartialEq, Eq, Hash)]
#[cfg_attr(feature = "serde", derive(serde::Serialize, serde::Deserialize))]
#[non_exhaustive]
pub struct TownshipText<'a> {
    /// The description.
    pub text: &'a str,
    /// Where it begins in the whole text, in bytes.
    pub start: usize,
    /// Where it ends.
    pub end: usize,
}

impl TownshipText<'_> {
    /// Returns the township in its heading. It is refused if it does not begin with a heading.
    ///
    /// As in a description, zeros before a number mean nothing: `T. 0020 N.` is township 20.
    ///
    /// ```
    /// let parts = township::split("T2N R3W sec. 5; T3N R3W sec. 31")?;
    /// assert_eq!(parts[1].township()?.to_string(), "T. 3 N., R. 3 W.");
    /// # Ok::<(), township::Refused>(())
    /// ```
    pub fn township(&self) -> Result<Township, Refused> {
        township_in_heading(self.text)
    }
}

/// Returns the township in the heading of a description. It is refused if it does not begin with one.
pub(crate) fn township_in_heading(text: &str) -> Result<Township, Refused> {
    let mut given = text.as_bytes().to_vec();
    loop {
        let (answer, parts) = ffi::designation_read(&given);
        let fault = match answer.accepted() {
            Ok(_) => {
                let read = Township::from_designation(&parts);
                return Ok(read.expect("what is read is a township"));
            }
            Err(fault) => fault,
        };
        let at = usize::try_from(fault.refusal.at).expect("a place is in the text");
        if fault.refusal.number == ffi::REFUSAL_DESIGNATION_AFTER {
            // Land follows the township, at this place.
            given.truncate(at);
        } else if !blank_zeros(&mut given, at) {
            let refusal = Refusal {
                at: start_of_number(text.as_bytes(), fault.refusal.at),
                ..fault.refusal
            };
            return Err(refused_township(Fault { refusal, ..fault }, text));
        }
    }
}

/// Writes spaces for the zeros at the beginning of the number at a place. Returns whether there are any.
fn blank_zeros(given: &mut [u8], at: usize) -> bool {
    let rest = given.get_mut(at..).unwrap_or_default();
    let zeros = rest.iter().take_while(|&&byte| byte == b'0').count();
    let has_more = rest.get(zeros).is_some_and(u8::is_ascii_digit);
    if has_more {
        rest[..zeros].fill(b' ');
    }
    has_more && zeros > 0
}

/// Returns where the number begins of which there is a digit at a place, or the place itself.
fn start_of_number(text: &[u8], at: u32) -> u32 {
    let end = usize::try_from(at).expect("a place is in the text");
    if !text.get(end).is_some_and(u8::is_ascii_digit) {
        return at;
    }
    let before = text[..end].iter().rev();
    let digits = before.take_while(|byte| byte.is_ascii_digit()).count();
    u32::try_from(end - digits).expect("it is before the place")
}

/// Splits a text with the land of several townships into their descriptions.
///
/// A part begins with its heading, and ends before the `;` or `; and` that the next heading follows.
/// It may be refused when it is read. A text with one township, or without a heading, is its only
/// part. The text is refused if it has a heading, but its first land has none (38), or if it is too
/// long (39). `docs/SEVERAL-TOWNSHIPS.md` has more examples.
///
/// ```
/// let text = "T2N R3W sec. 5, lots 1 and 2; and T3N R3W secs. 31 and 32";
/// let parts = township::split(text)?;
/// assert_eq!(parts[0].text, "T2N R3W sec. 5, lots 1 and 2");
/// assert_eq!(parts[1].text, "T3N R3W secs. 31 and 32");
/// assert_eq!((parts[1].start, parts[1].end), (34, 57));
///
/// let refused = township::split("sec. 5; T. 2 N., R. 3 W., sec. 6.").unwrap_err();
/// assert_eq!((refused.number, refused.at), (38, 8));
/// # Ok::<(), township::Refused>(())
/// ```
pub fn split(text: &str) -> Result<Vec<TownshipText<'_>>, Refused> {
    let mut found = vec![ffi::Stretch::BLANK; USUAL_PARTS];
    let mut answer = ffi::split(text.as_bytes(), &mut found);
    if answer.verdict() == Verdict::NoRoom {
        found = vec![ffi::Stretch::BLANK; size(answer.length)];
        answer = ffi::split(text.as_bytes(), &mut found);
    }
    match answer.verdict() {
        Verdict::Accepted => Ok(found[..size(answer.length)]
            .iter()
            .map(|stretch| part_of(text, size(stretch.start), size(stretch.end)))
            .collect()),
        Verdict::NoMemory => out_of_memory(),
        _ => Err(refused_split(answer.number, answer.at, text)),
    }
}

/// Returns a size in bytes, or the number of an element, of something in memory.
fn size(number: u64) -> usize {
    usize::try_from(number).expect("it is in memory")
}

fn part_of(text: &str, start: usize, end: usize) -> TownshipText<'_> {
    // A part begins with a letter or with the text. Before a heading, each byte is of a token or is white
    // space, so a part ends with all bytes of its last character.
    TownshipText {
        text: &text[start..end],
        start,
        end,
    }
}

/// Returns the refusal of a text that can't be split, with its explanation.
fn refused_split(number: u32, at: u32, text: &str) -> Refused {
    let fault = Fault {
        refusal: Refusal { number, at },
        inner: None,
    };
    let (span, sentence) = if number == ffi::REFUSAL_SPLIT_TOO_LARGE {
        (None, format!("the text is longer than {at} bytes"))
    } else {
        let place = usize::try_from(at).expect("a place is in the text");
        let sentence = "the land before this heading has no heading".to_owned();
        (Some(place..place + 1), sentence)
    };
    refused_in(DESCRIPTION, text, fault, span, sentence)
}
