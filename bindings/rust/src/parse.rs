//! Parsing of the texts that the types here display.

use std::error::Error;
use std::fmt;

/// The error for a text that is not what its type displays.
///
/// ```
/// let error = "161".parse::<township::Acres>().unwrap_err();
/// assert_eq!(error.to_string(), "not an acreage, such as 161.00");
/// ```
#[derive(Clone, Copy, Debug, PartialEq, Eq, Hash)]
pub struct ParseError {
    expected: &'static str,
}

impl ParseError {
    /// The error for a text that is not the thing named, of which there is an example.
    pub(crate) const fn not(expected: &'static str) -> ParseError {
        ParseError { expected }
    }
}

impl fmt::Display for ParseError {
    fn fmt(&self, f: &mut fmt::Formatter<'_>) -> fmt::Result {
        write!(f, "not {}", self.expected)
    }
}

impl Error for ParseError {}

/// Parses digits as a number. Rust's own `parse` would also accept a sign.
pub(crate) fn number<N: std::str::FromStr>(digits: &str) -> Option<N> {
    if !digits.bytes().all(|digit| digit.is_ascii_digit()) {
        return None;
    }
    digits.parse().ok()
}
