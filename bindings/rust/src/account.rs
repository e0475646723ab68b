//! Accounts.

use crate::ffi;
use crate::parse::ParseError;
use std::fmt;
use std::str::FromStr;

/// How a whole lot counts in the acreage of a description. It is displayed as `exact` or `plat`, the
/// words of the program's option `--account`, and parsed from them.
///
/// ```
/// use township::Account;
///
/// assert_eq!("plat".parse(), Ok(Account::Plat));
/// assert_eq!(Account::default().to_string(), "exact");
/// assert!("Plat".parse::<Account>().is_err());
/// ```
#[derive(Clone, Copy, Debug, Default, PartialEq, Eq, Hash)]
pub enum Account {
    /// At its exact area.
    #[default]
    Exact,
    /// At the acreage printed on the plat. Other land counts at its nominal area.
    Plat,
}

impl Account {
    /// Returns the library's code for the account.
    pub(crate) fn code(self) -> u32 {
        match self {
            Account::Exact => ffi::EXACT,
            Account::Plat => ffi::BY_PLAT,
        }
    }
}

impl FromStr for Account {
    type Err = ParseError;

    /// Parses `exact` or `plat`.
    fn from_str(word: &str) -> Result<Account, ParseError> {
        match word {
            "exact" => Ok(Account::Exact),
            "plat" => Ok(Account::Plat),
            _ => Err(ParseError::not("an account, exact or plat")),
        }
    }
}

impl fmt::Display for Account {
    fn fmt(&self, f: &mut fmt::Formatter<'_>) -> fmt::Result {
        f.pad(match self {
            Account::Exact => "exact",
            Account::Plat => "plat",
        })
    }
}
