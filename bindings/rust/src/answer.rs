//! Interpretation of the library's answers.

use crate::ffi::{self, Answer};
use crate::refused::Refusal;
use crate::township::Township;
use std::error::Error;
use std::fmt;

/// The outcome of a call.
#[derive(Clone, Copy, Debug, PartialEq, Eq)]
pub(crate) enum Verdict {
    Accepted,
    Refused,
    /// A tract's description was refused, and its own refusal is included.
    TractRefused,
    NoPlat,
    NoAccount,
    NoRoom,
    NoMemory,
    NoRange,
    NoLand,
    NoLots,
    NoTownship,
    NoOperation,
    OtherTownship,
    OtherPlat,
}

/// The error for land, plats, and lot tables of two different townships, or of two different plats
/// of one.
///
/// Two plats of a township are different if their dates are, or if one has the standard lots and the
/// other has not.
///
/// ```
/// let other = township::Land::empty("T. 3 N., R. 3 W.".parse()?);
/// # let notes = include_bytes!(concat!(env!("TOWNSHIP_FILES"), "/samples/b1.csv"));
/// # let plat = township::Plat::read(notes)?;
/// let error = plat.land_acres(&other).unwrap_err();
/// assert_eq!(
///     error.to_string(),
///     "T. 3 N., R. 3 W. and T. 2 N., R. 3 W. are two different townships"
/// );
/// # Ok::<(), Box<dyn std::error::Error>>(())
/// ```
#[derive(Clone, Copy, Debug, PartialEq, Eq, Hash)]
#[cfg_attr(feature = "serde", derive(serde::Serialize, serde::Deserialize))]
#[non_exhaustive]
pub struct OtherPlat {
    /// The township of the first land, or of the land.
    pub first: Township,
    /// The township of the second land, or of the plat or the lot table. It is the same one if they
    /// are on two different plats of it.
    pub second: Township,
}

/// The reason that an input is refused, before it is explained.
#[derive(Clone, Copy, Debug, PartialEq, Eq)]
pub(crate) struct Fault {
    pub(crate) refusal: Refusal,
    /// The refusal of a tract's description.
    pub(crate) inner: Option<Refusal>,
}

impl Answer {
    pub(crate) fn verdict(&self) -> Verdict {
        match self.verdict {
            ffi::ACCEPTED => Verdict::Accepted,
            ffi::REFUSED => Verdict::Refused,
            ffi::TRACT_REFUSED => Verdict::TractRefused,
            ffi::NO_PLAT => Verdict::NoPlat,
            ffi::NO_ACCOUNT => Verdict::NoAccount,
            ffi::NO_ROOM => Verdict::NoRoom,
            ffi::NO_MEMORY => Verdict::NoMemory,
            ffi::NO_RANGE => Verdict::NoRange,
            ffi::NO_LAND => Verdict::NoLand,
            ffi::NO_LOTS => Verdict::NoLots,
            ffi::NO_TOWNSHIP => Verdict::NoTownship,
            ffi::NO_OPERATION => Verdict::NoOperation,
            ffi::OTHER_TOWNSHIP => Verdict::OtherTownship,
            ffi::OTHER_PLAT => Verdict::OtherPlat,
            unknown => panic!("the library answered with verdict {unknown}, which is unknown here"),
        }
    }

    /// Returns this answer if it accepts the input, or else the fault for which it refuses it.
    ///
    /// Panics if memory runs out. The other verdicts cannot occur: the types rule out plats, land, and
    /// so on that are not valid, every text gets the buffer that it needs, and callers look for
    /// different townships and plats first.
    pub(crate) fn accepted(self) -> Result<Answer, Fault> {
        match self.verdict() {
            Verdict::Accepted => Ok(self),
            Verdict::Refused => Err(self.fault(None)),
            Verdict::TractRefused => Err(self.fault(Some(self.inner_refusal()))),
            Verdict::NoMemory => out_of_memory(),
            verdict @ (Verdict::NoPlat
            | Verdict::NoAccount
            | Verdict::NoRoom
            | Verdict::NoRange
            | Verdict::NoLand
            | Verdict::NoLots
            | Verdict::NoTownship
            | Verdict::NoOperation
            | Verdict::OtherTownship
            | Verdict::OtherPlat) => {
                unreachable!("the library was given what it takes, and answered {verdict:?}")
            }
        }
    }

    /// Returns this answer unless it says that the call was given these two different townships, or
    /// two plats of one.
    pub(crate) fn on_one_plat(
        self,
        first: Township,
        second: Township,
    ) -> Result<Answer, OtherPlat> {
        match self.verdict() {
            Verdict::OtherTownship | Verdict::OtherPlat => Err(OtherPlat { first, second }),
            _ => Ok(self),
        }
    }

    /// Returns whether this is the answer of a call that explains a fault, even if it had no room for the
    /// text.
    pub(crate) fn is_of(&self, fault: Fault) -> bool {
        let inner = (self.inner_number > 0).then(|| self.inner_refusal());
        self.fault(inner) == fault
    }

    /// Returns the length of this answer's text in bytes, or the number of its parts.
    pub(crate) fn text_length(&self) -> usize {
        usize::try_from(self.length).expect("a text that was in memory fits there")
    }

    fn fault(&self, inner: Option<Refusal>) -> Fault {
        let refusal = Refusal {
            number: self.number,
            at: self.at,
        };
        Fault { refusal, inner }
    }

    fn inner_refusal(&self) -> Refusal {
        Refusal {
            number: self.inner_number,
            at: self.inner_at,
        }
    }
}

impl fmt::Display for OtherPlat {
    fn fmt(&self, f: &mut fmt::Formatter<'_>) -> fmt::Result {
        let (first, second) = (self.first, self.second);
        if first == second {
            return write!(f, "these are on two different plats of {first}");
        }
        write!(f, "{first} and {second} are two different townships")
    }
}

impl Error for OtherPlat {}

/// Panics because there is not enough memory.
pub(crate) fn out_of_memory() -> ! {
    panic!("township: out of memory")
}

#[cfg(test)]
mod tests {
    use super::*;

    // Some of these verdicts are too rare to provoke from the library itself.

    fn with(verdict: u32) -> Answer {
        Answer {
            verdict,
            number: 83,
            at: 2,
            inner_number: 67,
            inner_at: 19,
            ..Answer::BLANK
        }
    }

    const REFUSAL: Refusal = Refusal { number: 83, at: 2 };
    const INNER: Refusal = Refusal { number: 67, at: 19 };

    #[test]
    fn accepted_is_the_answer() {
        let answer = with(ffi::ACCEPTED);
        assert_eq!(answer.accepted(), Ok(answer));
    }

    #[test]
    fn only_a_tract_has_an_inner_refusal() {
        let fault = |inner| Fault {
            refusal: REFUSAL,
            inner,
        };
        assert_eq!(with(ffi::REFUSED).accepted(), Err(fault(None)));
        assert_eq!(with(ffi::TRACT_REFUSED).accepted(), Err(fault(Some(INNER))));
    }

    #[test]
    #[should_panic(expected = "township: out of memory")]
    fn memory_that_ran_out() {
        let _ = with(ffi::NO_MEMORY).accepted();
    }

    #[test]
    #[should_panic(expected = "answered NoPlat")]
    fn plat_that_is_none() {
        let _ = with(ffi::NO_PLAT).accepted();
    }

    #[test]
    #[should_panic(expected = "answered NoAccount")]
    fn account_that_is_none() {
        let _ = with(ffi::NO_ACCOUNT).accepted();
    }

    #[test]
    #[should_panic(expected = "answered NoRoom")]
    fn room_that_is_too_small() {
        let _ = with(ffi::NO_ROOM).accepted();
    }

    #[test]
    fn nothing_else_is_valid_that_is_not() {
        for (verdict, name) in [
            (ffi::NO_RANGE, "NoRange"),
            (ffi::NO_LAND, "NoLand"),
            (ffi::NO_LOTS, "NoLots"),
            (ffi::NO_TOWNSHIP, "NoTownship"),
            (ffi::NO_OPERATION, "NoOperation"),
            (ffi::OTHER_TOWNSHIP, "OtherTownship"),
            (ffi::OTHER_PLAT, "OtherPlat"),
        ] {
            let panic = std::panic::catch_unwind(|| with(verdict).accepted()).unwrap_err();
            let message = panic.downcast_ref::<String>().unwrap();
            assert!(message.ends_with(&format!("answered {name}")), "{message}");
        }
    }

    #[test]
    fn different_townships() {
        let township = |text: &str| text.parse::<Township>().unwrap();
        let (first, second) = (township("T. 2 N., R. 3 W."), township("T. 3 N., R. 3 W."));
        let error = OtherPlat { first, second };
        let answer = with(ffi::OTHER_TOWNSHIP).on_one_plat(first, second);
        assert_eq!(answer, Err(error));
        let answer = with(ffi::ACCEPTED);
        assert_eq!(answer.on_one_plat(first, second), Ok(answer));
        let answer = with(ffi::OTHER_PLAT).on_one_plat(first, first);
        assert_eq!(
            answer.unwrap_err().to_string(),
            "these are on two different plats of T. 2 N., R. 3 W."
        );
    }

    #[test]
    #[should_panic(expected = "verdict 99, which is unknown here")]
    fn unknown_verdict() {
        let _ = with(99).accepted();
    }
}
