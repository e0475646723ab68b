//! The parts that the canonical text of land names.

use crate::answer::Verdict;
use crate::ffi;

/// The number of parts that a first call has room for.
const USUAL_ROOM: usize = 64;

/// A part of land, as the canonical text writes it: a lot, or a block of aliquot parts.
///
/// The unit is a place, of which a section has 32 rows and 32 columns. A part is a block of
/// `columns` by `rows` places, whose southeast corner is `column` places west of the section's east
/// line and `row` places north of its south line.
///
/// ```
/// let township = "T. 2 N., R. 3 W.".parse()?;
/// let lot = township::Land::read(township, "sec. 6, lot 7.")?.parts()[0];
/// assert_eq!((lot.section, lot.lot), (6, Some(7)));
/// assert_eq!((lot.column, lot.row, lot.columns, lot.rows), (24, 0, 8, 8));
/// # Ok::<(), Box<dyn std::error::Error>>(())
/// ```
#[derive(Clone, Copy, Debug, PartialEq, Eq, Hash)]
#[cfg_attr(feature = "serde", derive(serde::Serialize, serde::Deserialize))]
#[non_exhaustive]
pub struct Part {
    /// The section's number, 1 to 36.
    pub section: u8,
    /// The lot's number, or `None` if the part is not a lot.
    pub lot: Option<u8>,
    /// The number of places east of the block.
    pub column: u8,
    /// The number of places south of the block.
    pub row: u8,
    /// The width of the block, from east to west.
    pub columns: u8,
    /// The height of the block, from south to north.
    pub rows: u8,
}

impl Part {
    /// Returns the parts of land, in the order of its canonical text.
    pub(crate) fn all_of(land: &ffi::Land) -> Vec<Part> {
        let mut parts = vec![ffi::Part::BLANK; USUAL_ROOM];
        let mut answer = ffi::land_parts(land, &mut parts);
        if answer.verdict() == Verdict::NoRoom {
            parts.resize(answer.text_length(), ffi::Part::BLANK);
            answer = ffi::land_parts(land, &mut parts);
        }
        match answer.accepted() {
            Ok(answer) => parts[..answer.text_length()]
                .iter()
                .map(Part::from_data)
                .collect(),
            Err(fault) => unreachable!("land has parts, and {}", fault.refusal),
        }
    }

    fn from_data(part: &ffi::Part) -> Part {
        Part {
            section: part.section,
            lot: (part.lot > 0).then_some(part.lot),
            column: part.column,
            row: part.row,
            columns: part.columns,
            rows: part.rows,
        }
    }
}
