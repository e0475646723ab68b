//! Acreage in the United States rectangular survey.
//!
//! A township's field notes make a plat. For a legal description by lots and aliquot parts, the
//! plat gives the exact acreage of the land, rounded once, or the numbered refusal of the first
//! error, with its location. The answers are computed by this repository's proved library; this
//! crate wraps it in safe functions.
//!
//! ```
//! # let notes = include_bytes!(concat!(env!("TOWNSHIP_FILES"), "/samples/b1.csv"));
//! let plat = township::Plat::read(notes)?;
//! assert_eq!(plat.acres("sec. 5, lots 1 and 2, S1/2NE1/4.")?.to_string(), "161.00");
//!
//! let refused = plat.acres("sec. 5, N1/2.").unwrap_err();
//! assert_eq!((refused.number, refused.at), (66, 8));
//! assert_eq!(refused.sentence(), "this part includes lots; name the lots instead");
//! # Ok::<(), township::Refused>(())
//! ```
//!
//! The examples use the field notes in `samples/b1.csv`.
//!
//! # Memory and stack
//!
//! The library frees all the memory it allocates before it returns. If memory runs out, a function
//! panics with the message `township: out of memory`. Each thread needs a stack of at least
//! 256 KiB; by default, Rust gives the threads it spawns 2 MiB.
//!
//! # Features
//!
//! With the feature `serde`, all types here can be serialized and deserialized.
#![deny(missing_docs)]
#![deny(unsafe_code)]
#![warn(clippy::all)]

mod account;
mod acres;
mod answer;
mod area;
#[cfg(feature = "serde")]
mod data;
mod date;
mod difference;
mod earlier;
mod explanation;
#[allow(unsafe_code)]
mod ffi;
mod figures;
mod land;
mod lands;
mod lot_faults;
mod lots;
mod note;
mod parse;
mod part;
mod plat;
mod plats;
mod readings;
mod refused;
mod report;
mod split;
mod text;
mod township;
mod township_faults;

pub use self::account::Account;
pub use self::acres::Acres;
pub use self::answer::OtherPlat;
pub use self::area::Area;
pub use self::date::Date;
pub use self::difference::Difference;
pub use self::explanation::OtherPlace;
pub use self::figures::{Figures, Section};
pub use self::land::{Comparison, Land, NoLand, Rows};
pub use self::lands::Lands;
pub use self::lots::{Lots, NoLandAcres, PlatLot};
pub use self::note::Note;
pub use self::parse::ParseError;
pub use self::part::Part;
pub use self::plat::{NoPlat, Plat, LINES};
pub use self::plats::{Basis, DifferentPlats, NoAcres, OpenError, Plats, PlatsReport, PlatsTract};
pub use self::readings::{
    suggest, suggest_without, Assumption, Beyond, Change, Manner, PartReadings, Phrases, Reading,
    Rule, Suggestion, Unread, Ways,
};
pub use self::refused::{Refusal, Refused};
pub use self::report::{
    LotsOverlap, LotsReport, Overlap, Report, Tract, TractAnswer, TractRefusal,
};
pub use self::split::{split, TownshipText};
pub use self::township::{EastWest, NorthSouth, Township};

/// Returns the version of the library, such as `1.0.0`.
///
/// ```
/// assert_eq!(township::version().split('.').count(), 3);
/// ```
pub fn version() -> String {
    text::accepted_text_by(ffi::version)
}

/// Runs the README's examples along with those in the documentation.
#[cfg(doctest)]
#[doc = include_str!(concat!(env!("OUT_DIR"), "/README.md"))]
struct Readme;
