//! The texts of land.

use super::Land;
use crate::parse::ParseError;
use crate::township::Township;
use std::fmt;
use std::str::FromStr;

/// The most characters of a canonical text that `Debug` shows.
const SHOWN_MOST: usize = 100;

/// The end of a text that is longer.
const MORE: &str = " ..";

impl Land {
    /// Makes the land of a text whose first line is the township, as a heading.
    fn from_text(text: &str) -> Option<Land> {
        let heading = text.lines().next()?;
        let township: Township = heading.strip_suffix(',')?.parse().ok()?;
        Land::read(township, text).ok()
    }
}

impl FromStr for Land {
    type Err = ParseError;

    /// Parses a canonical text, which begins with a line for the township. To read any description,
    /// and to learn why it is refused, call [`Land::read`].
    ///
    /// ```
    /// use township::Land;
    ///
    /// let text = "T. 2 N., R. 3 W.,\nsec. 14, N1/2.\n";
    /// let land: Land = text.parse().unwrap();
    /// assert_eq!(land.to_string(), text);
    /// assert!("sec. 14, N1/2.".parse::<Land>().is_err());
    /// ```
    fn from_str(text: &str) -> Result<Land, ParseError> {
        Land::from_text(text).ok_or(ParseError::not("the canonical text of land"))
    }
}

impl fmt::Display for Land {
    /// Writes the canonical text: a line for the township, and then the land in each section.
    fn fmt(&self, f: &mut fmt::Formatter<'_>) -> fmt::Result {
        f.write_str(&self.text())
    }
}

impl fmt::Debug for Land {
    fn fmt(&self, f: &mut fmt::Formatter<'_>) -> fmt::Result {
        let text = self.text();
        if text.is_empty() {
            return write!(f, "Land(none in {})", self.township());
        }
        let words: Vec<&str> = text.split_whitespace().collect();
        write!(f, "Land({})", shortened(&words.join(" ")))
    }
}

/// Returns a text, or as many of its first words as can be shown.
pub(crate) fn shortened(text: &str) -> String {
    if text.len() <= SHOWN_MOST {
        return text.to_owned();
    }
    let room = SHOWN_MOST - MORE.len();
    let end = (0..=room).rev().find(|&at| text[at..].starts_with(' '));
    format!("{}{MORE}", &text[..end.unwrap_or(room)])
}
