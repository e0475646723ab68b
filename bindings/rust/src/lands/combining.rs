//! Operations on two values of land in several townships.

use super::Lands;
use crate::land::Land;
use std::ops::{BitAnd, BitAndAssign, BitOr, BitOrAssign, BitXor, BitXorAssign, Sub, SubAssign};

impl Lands {
    /// Returns the land in either of the two: `|`.
    pub fn union(&self, other: &Lands) -> Lands {
        self.clone().into_iter().chain(other.clone()).collect()
    }

    /// Returns the land in both: `&`.
    pub fn intersection(&self, other: &Lands) -> Lands {
        let shared = |(township, land): (_, &Land)| Some(land & other.get(township)?);
        self.by_township().filter_map(shared).collect()
    }

    /// Returns the land in this one and not in the other: `-`.
    pub fn difference(&self, other: &Lands) -> Lands {
        let rest = |(township, land): (_, &Land)| match other.get(township) {
            Some(others) => land - others,
            None => land.clone(),
        };
        self.by_township().map(rest).collect()
    }

    /// Returns the land in one of the two and not in the other: `^`.
    pub fn symmetric_difference(&self, other: &Lands) -> Lands {
        self.difference(other).union(&other.difference(self))
    }
}

/// An operator on values, owned or not, by a method.
macro_rules! operator {
    ($operator:ident, $call:ident, $assign:ident, $call_assign:ident, $method:ident) => {
        operator!(@ $operator, $call, $method, Lands, Lands);
        operator!(@ $operator, $call, $method, Lands, &Lands);
        operator!(@ $operator, $call, $method, &Lands, Lands);
        operator!(@ $operator, $call, $method, &Lands, &Lands);

        impl $assign<&Lands> for Lands {
            fn $call_assign(&mut self, other: &Lands) {
                *self = Lands::$method(self, other);
            }
        }

        impl $assign for Lands {
            fn $call_assign(&mut self, other: Lands) {
                *self = Lands::$method(self, &other);
            }
        }
    };
    (@ $operator:ident, $call:ident, $method:ident, $first:ty, $second:ty) => {
        impl $operator<$second> for $first {
            type Output = Lands;

            fn $call(self, other: $second) -> Lands {
                Lands::$method(&self, &other)
            }
        }
    };
}

operator!(BitOr, bitor, BitOrAssign, bitor_assign, union);
operator!(BitAnd, bitand, BitAndAssign, bitand_assign, intersection);
operator!(Sub, sub, SubAssign, sub_assign, difference);
operator!(
    BitXor,
    bitxor,
    BitXorAssign,
    bitxor_assign,
    symmetric_difference
);
