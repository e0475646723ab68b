//! Shared by the tests: the plats of the samples, and a lot table.

// Each file of tests uses part of it.
#![allow(dead_code)]

use township::{Lots, Plat};

/// T. 2 N., R. 3 W.; its west and north lines are uneven.
pub const NOTES: &[u8] = include_bytes!(concat!(env!("TOWNSHIP_FILES"), "/samples/b1.csv"));

/// The same township of exact square miles.
pub const EVEN_NOTES: &[u8] = include_bytes!(concat!(env!("TOWNSHIP_FILES"), "/samples/b0.csv"));

pub const TRACTS: &[u8] = include_bytes!(concat!(env!("TOWNSHIP_FILES"), "/samples/tracts.csv"));

/// The township of docs/LOTS-FORMAT.md: a lake covers the northwest quarter-quarter of section 14, two
/// lots share another one, and lot 4 is two of them.
pub const LAKE: &str = "section,lot,acres,land
T,2,N,3,W,1912-03-04
5,1,40.45,NE1/4NE1/4
14,1,38.50,NE1/4NE1/4
14,2,12.25,N1/2NW1/4NE1/4
14,3,19.80,S1/2NW1/4NE1/4
14,4,71.10,E1/2NW1/4
14,,,NW1/4NW1/4
";

pub fn lake() -> Lots {
    LAKE.parse().unwrap()
}

pub fn uneven() -> Plat {
    Plat::read(NOTES).expect("the sample makes a plat")
}

pub fn even() -> Plat {
    Plat::read(EVEN_NOTES).expect("the sample makes a plat")
}

/// An area to hundredths of an acre, half up.
pub fn rounded(area: township::Area) -> u64 {
    let (numerator, denominator) = (area.numerator(), area.denominator());
    u64::try_from((numerator * 200 + denominator) / (denominator * 2)).expect("it is on a plat")
}
