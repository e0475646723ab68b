//! Readings for which no plat is known: those that depend on its lots assume the standard ones.

use super::{Manner, Reading, Suggestion};
use crate::ffi::{self, Designation, PLACES_ACROSS};
use crate::part::Part;
use crate::split::township_in_heading;

/// The township of a description without a heading. The standard lots are the same in each.
const ANY_TOWNSHIP: Designation = Designation {
    number: 1,
    north_south: ffi::NORTH,
    range: 1,
    east_west: ffi::EAST,
};

impl Suggestion {
    /// Returns readings for which no plat is known. Each says whether it assumes the standard lots.
    pub(crate) fn with_standard_lots(mut self) -> Suggestion {
        for reading in &mut self.readings {
            reading.assumes_standard_lots = depends_on_lots(reading);
        }
        self
    }
}

/// Returns whether the land of a reading depends on the lots of the plat. A canonical description was
/// made with the standard lots. Any other description depends on them if its land includes a lot or a
/// whole section.
fn depends_on_lots(reading: &Reading) -> bool {
    if reading.manner != Manner::Changed {
        return true;
    }
    let township = match township_in_heading(&reading.text) {
        Ok(township) => township.designation(),
        Err(_) => ANY_TOWNSHIP,
    };
    let (answer, land) = ffi::land_read(&township, reading.text.as_bytes());
    // A text that is a description already is its own reading, even if a regular township refuses it.
    answer.accepted().is_ok() && Part::all_of(&land).iter().any(is_lot_or_section)
}

fn is_lot_or_section(part: &Part) -> bool {
    let sides = [part.columns, part.rows].map(usize::from);
    part.lot.is_some() || sides == [PLACES_ACROSS; 2]
}
