//! Operations on two lands.

use super::Land;
use crate::answer::OtherPlat;
use crate::ffi;
use std::ops::{BitAnd, BitAndAssign, BitOr, BitOrAssign, BitXor, BitXorAssign, Sub, SubAssign};

impl Land {
    /// Returns the land in either of the two: `|`.
    ///
    /// # Errors
    ///
    /// Returns [`OtherPlat`] if they are in different townships, or on different plats of one.
    ///
    /// ```
    /// use township::Land;
    ///
    /// let township = "T. 2 N., R. 3 W.".parse()?;
    /// let (east, west) = (Land::read(township, "sec. 14, E1/2.")?, Land::read(township, "sec. 14, W1/2.")?);
    /// assert_eq!(east.union(&west)?, Land::read(township, "sec. 14.")?);
    /// assert!(east.intersection(&west)?.is_empty());
    ///
    /// let other = Land::empty("T. 3 N., R. 3 W.".parse()?);
    /// let message = "T. 2 N., R. 3 W. and T. 3 N., R. 3 W. are two different townships";
    /// assert_eq!(east.union(&other).unwrap_err().to_string(), message);
    /// # Ok::<(), Box<dyn std::error::Error>>(())
    /// ```
    pub fn union(&self, other: &Land) -> Result<Land, OtherPlat> {
        self.combined(other, ffi::UNION)
    }

    /// Returns the land in both: `&`.
    ///
    /// # Errors
    ///
    /// The same as for [`Land::union`].
    pub fn intersection(&self, other: &Land) -> Result<Land, OtherPlat> {
        self.combined(other, ffi::INTERSECTION)
    }

    /// Returns the land in this one that is not in the other: `-`.
    ///
    /// # Errors
    ///
    /// The same as for [`Land::union`].
    pub fn difference(&self, other: &Land) -> Result<Land, OtherPlat> {
        self.combined(other, ffi::DIFFERENCE)
    }

    /// Returns the land in one of the two and not in both: `^`.
    ///
    /// # Errors
    ///
    /// The same as for [`Land::union`].
    pub fn symmetric_difference(&self, other: &Land) -> Result<Land, OtherPlat> {
        self.union(other)?.difference(&self.intersection(other)?)
    }

    fn combined(&self, other: &Land, operation: u32) -> Result<Land, OtherPlat> {
        let (answer, data) = ffi::land_combine(&self.data, &other.data, operation);
        let answer = answer.on_one_plat(self.township(), other.township())?;
        self.check_lots(other)?;
        match answer.accepted() {
            Ok(_) => Ok(Land::of(data, self.lots.clone())),
            Err(fault) => unreachable!("land can be combined, and {}", fault.refusal),
        }
    }
}

/// An operator on land, owned or not, by a method. It panics for two different plats.
macro_rules! operator {
    ($operator:ident, $call:ident, $assign:ident, $call_assign:ident, $method:ident) => {
        operator!(@ $operator, $call, $method, Land, Land);
        operator!(@ $operator, $call, $method, Land, &Land);
        operator!(@ $operator, $call, $method, &Land, Land);
        operator!(@ $operator, $call, $method, &Land, &Land);

        impl $assign<&Land> for Land {
            fn $call_assign(&mut self, other: &Land) {
                *self = $operator::$call(&*self, other);
            }
        }

        impl $assign for Land {
            fn $call_assign(&mut self, other: Land) {
                *self = $operator::$call(&*self, &other);
            }
        }
    };
    (@ $operator:ident, $call:ident, $method:ident, $first:ty, $second:ty) => {
        impl $operator<$second> for $first {
            type Output = Land;

            fn $call(self, other: $second) -> Land {
                match Land::$method(&self, &other) {
                    Ok(land) => land,
                    Err(error) => panic!("{error}"),
                }
            }
        }
    };
}

operator!(BitOr, bitor, BitOrAssign, bitor_assign, union);
operator!(BitAnd, bitand, BitAndAssign, bitand_assign, intersection);
operator!(Sub, sub, SubAssign, sub_assign, difference);
operator!(
    BitXor,
    bitxor,
    BitXorAssign,
    bitxor_assign,
    symmetric_difference
);
