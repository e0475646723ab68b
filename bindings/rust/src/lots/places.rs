//! Where the lots of a lot table lie: the places of each in its section, and the aliquot parts that they
//! make up.

use super::{list, Lots};
use crate::acres::Acres;
use crate::ffi::{self, PLACES_ACROSS, SECTIONS};
use crate::land::Land;
use crate::part::Part;
use crate::text::accepted_text_by;

/// The places of a section: 32 rows from the south.
type SectionRows = [u32; PLACES_ACROSS];

/// The byte of a place where the plat has no land, and that of the first quarter-quarter that is
/// divided.
const NO_LAND: u8 = 100;
const FIRST_DIVIDED: u8 = 101;

/// The quarter-quarters along a side of a section, and the places along a side of one.
const QUARTERS: usize = 4;
const SIDE: usize = PLACES_ACROSS / QUARTERS;

/// Aliquot parts are the same in each section. They are written for one in which a regular township has
/// no lots.
const PLAIN_SECTION: usize = 14;

/// A whole section is no aliquot part, so its halves are written.
const WHOLE: &str = "all";
const HALVES: &str = "N1/2, S1/2";

/// A lot of a section, or land of the section that is not there, as a record of a lot table says it.
///
/// ```
/// let lots = township::Lots::read(b"section,lot,acres\nT,2,N,3,W\n5,1,40.45\n")?;
/// let lot = &lots.section(5)[0];
/// assert_eq!((lot.lot, lot.land.as_str()), (Some(1), "NE1/4NE1/4"));
/// assert_eq!(lot.acres.unwrap().to_string(), "40.45");
/// # Ok::<(), township::Refused>(())
/// ```
#[derive(Clone, Debug, PartialEq, Eq, Hash)]
#[non_exhaustive]
pub struct PlatLot {
    /// The lot's number. It is `None` for land that is not there.
    pub lot: Option<u8>,
    /// The returned acreage. It is `None` if the table lacks it, and for land that is not there.
    pub acres: Option<Acres>,
    /// Where it lies, in aliquot parts of the section, such as `N1/2NE1/4, SE1/4NE1/4`.
    pub land: String,
}

impl Lots {
    /// Returns whether the table says where its lots lie. If it does not, they are the standard lots.
    ///
    /// ```
    /// assert!(!township::Lots::new("T. 2 N., R. 3 W.".parse()?).has_land());
    /// # Ok::<(), township::Refused>(())
    /// ```
    pub fn has_land(&self) -> bool {
        self.data.mapped != 0
    }

    /// Returns where a lot lies, in aliquot parts of its section. It is `None` if there is no such lot.
    ///
    /// ```
    /// let lots = township::Lots::read(b"section,lot,acres,land\nT,2,N,3,W\n14,1,38.50,NE1/4 of the NE1/4\n")?;
    /// assert_eq!(lots.land_of_lot(14, 1).as_deref(), Some("NE1/4NE1/4"));
    /// assert_eq!(lots.land_of_lot(14, 2), None);
    /// # Ok::<(), township::Refused>(())
    /// ```
    pub fn land_of_lot(&self, section: u8, lot: u8) -> Option<String> {
        let is_lot = |&(its_section, its_lot, _): &_| (its_section, its_lot) == (section, lot);
        list::lots_in(&self.data).find(is_lot)?;
        Some(aliquot_parts(&self.rows_of(section, lot)))
    }

    /// Returns the lots of a section, by number, and then the land that is not there, if there is any. A
    /// section that there is not has none.
    ///
    /// ```
    /// let table = b"section,lot,acres,land\nT,2,N,3,W\n14,1,71.10,E1/2NW1/4\n14,,,W1/2NW1/4\n";
    /// let section = township::Lots::read(table)?.section(14);
    /// let lots: Vec<_> = section.iter().map(|each| (each.lot, each.land.as_str())).collect();
    /// assert_eq!(lots, [(Some(1), "E1/2NW1/4"), (None, "W1/2NW1/4")]);
    /// # Ok::<(), township::Refused>(())
    /// ```
    pub fn section(&self, number: u8) -> Vec<PlatLot> {
        if !(1..=SECTIONS).contains(&usize::from(number)) {
            return Vec::new();
        }
        let lots = self.figures().filter(|&(section, _, _)| section == number);
        let mut found: Vec<PlatLot> = lots
            .map(|(_, lot, acres)| PlatLot {
                lot: Some(lot),
                acres,
                land: aliquot_parts(&self.rows_of(number, lot)),
            })
            .collect();
        let missing = self.missing(number);
        if missing != [0; PLACES_ACROSS] {
            found.push(PlatLot {
                lot: None,
                acres: None,
                land: aliquot_parts(&missing),
            });
        }
        found
    }

    /// Returns the parts of land on the plat of the table, in the order of its text.
    pub(crate) fn parts_of(&self, land: &Land) -> Vec<Part> {
        let sections = (1..).zip(land.rows());
        sections
            .filter(|(_, rows)| **rows != [0; PLACES_ACROSS])
            .flat_map(|(section, rows)| self.parts_in(section, rows))
            .collect()
    }

    /// Returns whether the lots of another table lie at the same places.
    pub(crate) fn has_lots_of(&self, other: &Lots) -> bool {
        let (mine, others) = (&self.data, &other.data);
        mine.positions == others.positions && mine.divided == others.divided
    }

    /// Returns the parts of the land at these places of a section, which has whole lots. A lot in several
    /// parts is several of them.
    fn parts_in(&self, section: u8, rows: &SectionRows) -> Vec<Part> {
        let mut parts = Vec::new();
        let mut left = *rows;
        if *rows != self.missing(section).map(|row| !row) {
            let lots = list::lots_in(&self.data).filter(|&(number, _, _)| number == section);
            for (_, lot, _) in lots {
                let its_rows = self.rows_of(section, lot);
                let is_held = its_rows
                    .iter()
                    .zip(&left)
                    .all(|(its, row)| its & row == *its);
                if is_held {
                    parts.extend(blocks_of(section, Some(lot), &its_rows));
                    for (row, its) in left.iter_mut().zip(&its_rows) {
                        *row &= !its;
                    }
                }
            }
        }
        parts.extend(blocks_of(section, None, &left));
        parts
    }

    /// Returns the places of a lot, of which the library knows where it lies.
    fn rows_of(&self, section: u8, lot: u8) -> SectionRows {
        let description = format!("sec. {section}, lot {lot}.");
        let (answer, land) = ffi::lots_land_read(&self.data, description.as_bytes());
        match answer.accepted() {
            Ok(_) => land.rows[usize::from(section) - 1],
            Err(fault) => unreachable!("the section has the lot, and {}", fault.refusal),
        }
    }

    /// Returns the places of a section at which the plat has no land.
    fn missing(&self, section: u8) -> SectionRows {
        let mut rows = [0; PLACES_ACROSS];
        if !self.has_land() {
            return rows;
        }
        let first = QUARTERS * QUARTERS * (usize::from(section) - 1);
        for index in 0..QUARTERS * QUARTERS {
            let (top, left) = (SIDE * (index / QUARTERS), SIDE * (index % QUARTERS));
            let byte = self.data.positions[first + index];
            for place in (0..SIDE * SIDE).filter(|&place| self.mark_of(byte, place) == NO_LAND) {
                rows[top + place / SIDE] |= 1 << (left + place % SIDE);
            }
        }
        rows
    }

    /// Returns the mark of a place of a quarter-quarter that has this byte.
    fn mark_of(&self, byte: u8, place: usize) -> u8 {
        match byte.checked_sub(FIRST_DIVIDED) {
            Some(index) => self.data.divided[SIDE * SIDE * usize::from(index) + place],
            None => byte,
        }
    }
}

/// Returns places of a section in aliquot parts, as the records of a lot table have them.
fn aliquot_parts(rows: &SectionRows) -> String {
    let land = in_plain_section(rows);
    let text = accepted_text_by(|room| ffi::land_text(&land, room));
    let begin = format!("sec. {PLAIN_SECTION}, ");
    let parts = text.split_once(&begin).map_or("", |(_, after)| after);
    match parts.trim_end_matches(['.', '\n']) {
        WHOLE => HALVES.to_owned(),
        parts => parts.to_owned(),
    }
}

/// Returns the blocks of places of a section that its aliquot parts are, in their order, as parts of a
/// lot or of none.
fn blocks_of(section: u8, lot: Option<u8>, rows: &SectionRows) -> Vec<Part> {
    let parts = Part::all_of(&in_plain_section(rows));
    let of_section = |part| Part {
        section,
        lot,
        ..part
    };
    parts.into_iter().map(of_section).collect()
}

/// Returns the land at the same places of a section without lots.
fn in_plain_section(rows: &SectionRows) -> ffi::Land {
    let mut land = ffi::Land {
        township: ffi::Designation {
            number: 1,
            north_south: ffi::NORTH,
            range: 1,
            east_west: ffi::EAST,
        },
        ..ffi::Land::BLANK
    };
    land.rows[PLAIN_SECTION - 1] = *rows;
    land
}
