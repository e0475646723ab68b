//! The lots of lot tables, as the library knows them.

use crate::ffi::{self, SECTIONS};
use std::sync::OnceLock;

/// A lot table without a record, of any township: all regular townships have the same lots.
const ANY: &[u8] = b"section,lot,acres\nT,1,N,1,E\n";

/// Returns an iterator over the lots of a lot table: the section and the number of each, and its
/// figure, which is 0 if the table lacks the lot.
pub(super) fn lots_in(table: &ffi::Lots) -> impl Iterator<Item = (u8, u8, u32)> + '_ {
    let sections = (0..SECTIONS).zip(1..);
    sections.flat_map(move |(before, section)| {
        let indexes = usize::from(table.first[before])..usize::from(table.first[before + 1]);
        indexes.map(move |index| (section, table.numbers[index], table.figures[index]))
    })
}

/// Returns a lot table of a regular township that lacks each lot. Its own township means nothing.
pub(super) fn standard_table() -> &'static ffi::Lots {
    static TABLE: OnceLock<ffi::Lots> = OnceLock::new();
    TABLE.get_or_init(|| {
        let (answer, table) = ffi::lots_read(ANY);
        if let Err(fault) = answer.accepted() {
            unreachable!("it is a lot table, and {}", fault.refusal);
        }
        table
    })
}
