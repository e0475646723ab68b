//! Land in several townships as a value.

use crate::answer::Fault;
use crate::ffi;
use crate::land::{shortened, Land};
use crate::lots::Lots;
use crate::refused::{refused_in, Refusal, Refused, DESCRIPTION};
use crate::split::{split, TownshipText};
use crate::township::{EastWest, NorthSouth, Township};
use std::cmp::Ordering;
use std::fmt;
use std::str::FromStr;

mod combining;

/// The land that a text names in one or more townships, as a value.
///
/// To make one, call [`Lands::read`] with a text in which each part begins with its heading, or collect
/// [`Land`] of any townships. The order of the parts makes no difference. It does not depend on field
/// notes; only its acreage does ([`Plats::lands_acres`]).
///
/// `|`, `&`, `-`, and `^` work in each township separately, and so does `a <= b`. Two of these values are
/// equal if they are the same land. It is displayed as its canonical text: the townships in a fixed order,
/// each with its canonical description; and parsed from any text that [`Lands::read`] takes.
///
/// ```
/// use township::Lands;
///
/// let lease = Lands::read("T. 3 N., R. 3 W., sec. 32, S1/2; T. 2 N., R. 3 W., sec. 14, all.")?;
/// let rest = &lease - &Lands::read("T2N R3W sec. 14, N1/2")?;
/// assert_eq!(
///     rest.to_string(),
///     "T. 2 N., R. 3 W.,\nsec. 14, S1/2.\nT. 3 N., R. 3 W.,\nsec. 32, S1/2.\n"
/// );
/// assert!(rest < lease);
/// # Ok::<(), township::Refused>(())
/// ```
///
/// # Panics
///
/// If memory runs out, functions panic with the message `township: out of memory`.
///
/// [`Plats::lands_acres`]: crate::Plats::lands_acres
#[derive(Clone, Default, PartialEq, Eq, Hash)]
#[cfg_attr(feature = "serde", derive(serde::Serialize, serde::Deserialize))]
#[cfg_attr(feature = "serde", serde(from = "Vec<Land>", into = "Vec<Land>"))]
pub struct Lands {
    /// Land that is not empty, in the order of the canonical text, and only one of each township.
    lands: Vec<Land>,
}

impl Lands {
    /// Makes the land that a text names. Its parts are those of [`split`].
    ///
    /// # Errors
    ///
    /// Returns [`Refused`] if the text can't be split (38 or 39), if a part does not begin with a heading
    /// (31 to 36), or if it is refused (41 to 44, 61 to 68); the place is then in this part, and the
    /// explanation names its township. If a part names land of an earlier part, the number is 67, and
    /// the place is that of the part in the text.
    ///
    /// ```
    /// let refused = township::Lands::read("T2N R3W sec. 14; T3N R3W sec. 37").unwrap_err();
    /// assert_eq!(
    ///     refused.to_string(),
    ///     "T. 3 N., R. 3 W.:1:14: there is no section 37: sections are 1 to 36"
    /// );
    /// ```
    pub fn read(text: &str) -> Result<Lands, Refused> {
        Lands::read_by(text, |_| None)
    }

    /// The same, with the lots of a lot table in the townships that have one.
    pub(crate) fn read_by<'a>(
        text: &str,
        table_of: impl Fn(Township) -> Option<&'a Lots>,
    ) -> Result<Lands, Refused> {
        let mut lands: Vec<Land> = Vec::new();
        for part in split(text)? {
            let land = land_of(&part, &table_of)?;
            match lands
                .iter_mut()
                .find(|other| other.township() == land.township())
            {
                Some(before) => {
                    let both = &*before & &land;
                    if !both.is_empty() {
                        return Err(named_before(text, &part, &both));
                    }
                    *before |= land;
                }
                None => lands.push(land),
            }
        }
        Ok(lands.into_iter().collect())
    }

    /// Returns no land.
    pub fn empty() -> Lands {
        Lands::default()
    }

    /// Returns whether there is no land.
    pub fn is_empty(&self) -> bool {
        self.lands.is_empty()
    }

    /// Returns an iterator over the land in each township that has any, in the order of the canonical
    /// text.
    ///
    /// ```
    /// let lands = township::Lands::read("T3N R3W sec. 31; T2N R3W sec. 5, lot 1")?;
    /// let townships: Vec<String> = lands.by_township().map(|(township, _)| township.to_string()).collect();
    /// assert_eq!(townships, ["T. 2 N., R. 3 W.", "T. 3 N., R. 3 W."]);
    /// # Ok::<(), township::Refused>(())
    /// ```
    pub fn by_township(&self) -> impl Iterator<Item = (Township, &Land)> + '_ {
        self.lands.iter().map(|land| (land.township(), land))
    }

    /// Returns the land in a township, if there is any.
    pub fn get(&self, township: Township) -> Option<&Land> {
        self.lands.iter().find(|land| land.township() == township)
    }

    /// Returns whether this value contains all land of another.
    pub fn contains(&self, other: &Lands) -> bool {
        self >= other
    }

    /// Returns whether the two share land, also if they are the same or one contains the other.
    pub fn overlaps(&self, other: &Lands) -> bool {
        !self.is_disjoint(other)
    }

    /// Returns whether the two share no land.
    pub fn is_disjoint(&self, other: &Lands) -> bool {
        self.by_township().all(|(township, land)| {
            other
                .get(township)
                .map_or(true, |others| land.is_disjoint(others))
        })
    }

    /// Returns the canonical text on one line.
    pub(crate) fn on_one_line(&self) -> String {
        on_one_line(&self.to_string())
    }
}

/// Returns a text with a space for each stretch of white space.
fn on_one_line(text: &str) -> String {
    text.split_whitespace().collect::<Vec<_>>().join(" ")
}

/// Returns the land of a part of a text. In explanations, the part is called by its township.
fn land_of<'a>(
    part: &TownshipText<'_>,
    table_of: impl Fn(Township) -> Option<&'a Lots>,
) -> Result<Land, Refused> {
    let township = part.township()?;
    let name = township.to_string();
    if let Some(lots) = table_of(township) {
        return lots.land_as(&name, part.text.as_bytes());
    }
    let plat = township.nominal_plat();
    Land::read_as(&name, &plat, township, part.text.as_bytes())
}

/// Returns the refusal of a part that names land of an earlier part of the same township.
fn named_before(text: &str, part: &TownshipText<'_>, both: &Land) -> Refused {
    let refusal = Refusal {
        number: ffi::REFUSAL_LAND_OVERLAP,
        at: u32::try_from(part.start).expect("a text that is split is short"),
    };
    let fault = Fault {
        refusal,
        inner: None,
    };
    let sentence = "land of this part was named before".to_owned();
    let refused = refused_in(
        DESCRIPTION,
        text,
        fault,
        Some(part.start..part.end),
        sentence,
    );
    refused.with_hint(format!(
        "both parts include {}",
        on_one_line(&both.to_string())
    ))
}

/// Returns what townships are sorted by: north before south, and by number; then east before west, and
/// by range.
fn place_of(township: Township) -> (NorthSouth, u8, EastWest, u8) {
    (
        township.north_south(),
        township.number(),
        township.east_west(),
        township.range(),
    )
}

impl FromIterator<Land> for Lands {
    /// Collects land of any townships. Land of the same township is combined.
    fn from_iter<I: IntoIterator<Item = Land>>(lands: I) -> Lands {
        let mut found: Vec<Land> = Vec::new();
        for land in lands.into_iter().filter(|land| !land.is_empty()) {
            let place = place_of(land.township());
            match found.binary_search_by_key(&place, |other| place_of(other.township())) {
                Ok(index) => found[index] |= land,
                Err(index) => found.insert(index, land),
            }
        }
        Lands { lands: found }
    }
}

impl From<Vec<Land>> for Lands {
    fn from(lands: Vec<Land>) -> Lands {
        lands.into_iter().collect()
    }
}

impl From<Lands> for Vec<Land> {
    fn from(lands: Lands) -> Vec<Land> {
        lands.lands
    }
}

impl From<Land> for Lands {
    fn from(land: Land) -> Lands {
        [land].into_iter().collect()
    }
}

impl IntoIterator for Lands {
    type Item = Land;
    type IntoIter = std::vec::IntoIter<Land>;

    fn into_iter(self) -> Self::IntoIter {
        self.lands.into_iter()
    }
}

impl PartialOrd for Lands {
    /// Less is contained in more.
    fn partial_cmp(&self, other: &Lands) -> Option<Ordering> {
        match ((self - other).is_empty(), (other - self).is_empty()) {
            (true, true) => Some(Ordering::Equal),
            (true, false) => Some(Ordering::Less),
            (false, true) => Some(Ordering::Greater),
            (false, false) => None,
        }
    }
}

impl FromStr for Lands {
    type Err = Refused;

    /// Makes the land that a text names: [`Lands::read`].
    fn from_str(text: &str) -> Result<Lands, Refused> {
        Lands::read(text)
    }
}

impl fmt::Display for Lands {
    /// Writes the canonical text.
    fn fmt(&self, f: &mut fmt::Formatter<'_>) -> fmt::Result {
        self.lands.iter().try_for_each(|land| land.fmt(f))
    }
}

impl fmt::Debug for Lands {
    fn fmt(&self, f: &mut fmt::Formatter<'_>) -> fmt::Result {
        if self.is_empty() {
            return f.write_str("Lands(none)");
        }
        write!(f, "Lands({})", shortened(&self.on_one_line()))
    }
}
