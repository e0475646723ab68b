//! The library's constants, structs, and calls. Made by `tools/bindings.py` from
//! `include/township.h`, not by hand.

// The header declares more than this crate uses.
#![allow(dead_code)]

use std::mem::{offset_of, size_of};

pub(crate) const REFUSAL_NOTES_TOO_LARGE: u32 = 1;
pub(crate) const REFUSAL_NOTES_EMPTY: u32 = 2;
pub(crate) const REFUSAL_NOTES_HEADING: u32 = 3;
pub(crate) const REFUSAL_NOTES_COLUMNS: u32 = 4;
pub(crate) const REFUSAL_NOTES_TOWNSHIP: u32 = 5;
pub(crate) const REFUSAL_NOTES_RUN: u32 = 6;
pub(crate) const REFUSAL_NOTES_SECTION: u32 = 7;
pub(crate) const REFUSAL_NOTES_NO_LINE: u32 = 8;
pub(crate) const REFUSAL_NOTES_LENGTH: u32 = 9;
pub(crate) const REFUSAL_NOTES_REPEATED: u32 = 10;
pub(crate) const REFUSAL_NOTES_MISSING: u32 = 11;
pub(crate) const REFUSAL_PLAT_IRREGULAR: u32 = 21;
pub(crate) const REFUSAL_PLAT_CLOSING_SHORT: u32 = 22;
pub(crate) const REFUSAL_PLAT_CLOSING_LONG: u32 = 23;
pub(crate) const REFUSAL_DESIGNATION_NUMBER: u32 = 31;
pub(crate) const REFUSAL_DESIGNATION_DIRECTION: u32 = 32;
pub(crate) const REFUSAL_DESIGNATION_RANGE: u32 = 33;
pub(crate) const REFUSAL_DESIGNATION_RANGE_DIRECTION: u32 = 34;
pub(crate) const REFUSAL_DESIGNATION_AFTER: u32 = 35;
pub(crate) const REFUSAL_DESIGNATION_TOO_LARGE: u32 = 36;
pub(crate) const REFUSAL_SPLIT_NO_HEADING: u32 = 38;
pub(crate) const REFUSAL_SPLIT_TOO_LARGE: u32 = 39;
pub(crate) const REFUSAL_TEXT_TOO_LARGE: u32 = 41;
pub(crate) const REFUSAL_TEXT_BAD_BYTE: u32 = 42;
pub(crate) const REFUSAL_TEXT_BAD_NUMBER: u32 = 43;
pub(crate) const REFUSAL_TEXT_SYNTAX: u32 = 44;
pub(crate) const REFUSAL_PHRASES_TOO_LARGE: u32 = 50;
pub(crate) const REFUSAL_PHRASES_NAMES_LAND: u32 = 51;
pub(crate) const REFUSAL_LAND_OTHER_TOWNSHIP: u32 = 61;
pub(crate) const REFUSAL_LAND_NO_SECTION: u32 = 62;
pub(crate) const REFUSAL_LAND_BACKWARD: u32 = 63;
pub(crate) const REFUSAL_LAND_NO_LOT: u32 = 64;
pub(crate) const REFUSAL_LAND_TOO_FINE: u32 = 65;
pub(crate) const REFUSAL_LAND_ON_LOT: u32 = 66;
pub(crate) const REFUSAL_LAND_OVERLAP: u32 = 67;
pub(crate) const REFUSAL_LAND_NO_LAND: u32 = 68;
pub(crate) const REFUSAL_TRACTS_TOO_LARGE: u32 = 80;
pub(crate) const REFUSAL_TRACT_ROW: u32 = 81;
pub(crate) const REFUSAL_NAME_REPEATED: u32 = 82;
pub(crate) const REFUSAL_TRACT_REFUSED: u32 = 83;
pub(crate) const REFUSAL_TRACTS_OVERLAP: u32 = 84;
pub(crate) const REFUSAL_TOO_MANY_TRACTS: u32 = 85;
pub(crate) const REFUSAL_LOTS_TOO_LARGE: u32 = 86;
pub(crate) const REFUSAL_LOTS_EMPTY: u32 = 87;
pub(crate) const REFUSAL_LOTS_HEADING: u32 = 88;
pub(crate) const REFUSAL_LOTS_COLUMNS: u32 = 89;
pub(crate) const REFUSAL_LOTS_TOWNSHIP: u32 = 90;
pub(crate) const REFUSAL_LOTS_NO_LOT: u32 = 91;
pub(crate) const REFUSAL_LOTS_ACRES: u32 = 92;
pub(crate) const REFUSAL_LOTS_REPEATED: u32 = 93;
pub(crate) const REFUSAL_LOTS_LACKING: u32 = 94;
pub(crate) const REFUSAL_LOTS_DATE: u32 = 95;
pub(crate) const REFUSAL_LOTS_LAND: u32 = 96;
pub(crate) const REFUSAL_LOTS_TOO_FINE: u32 = 97;
pub(crate) const REFUSAL_LOTS_SHARED: u32 = 98;
pub(crate) const REFUSAL_LOTS_TOO_MANY: u32 = 99;
pub(crate) const REFUSAL_LOTS_UNFILLED: u32 = 100;
pub(crate) const REFUSAL_LOTS_DIVIDED: u32 = 101;
pub(crate) const LINES: usize = 84;
pub(crate) const NOTES_MOST: usize = 65_536;
pub(crate) const DESCRIPTION_MOST: usize = 65_536;
pub(crate) const LIST_MOST: usize = 1_048_576;
pub(crate) const LOTS_TEXT_MOST: usize = 65_536;
pub(crate) const SPLIT_MOST: usize = 1_048_576;
pub(crate) const ACCEPTED: u32 = 0;
pub(crate) const REFUSED: u32 = 1;
pub(crate) const TRACT_REFUSED: u32 = 2;
pub(crate) const NO_PLAT: u32 = 3;
pub(crate) const NO_ACCOUNT: u32 = 4;
pub(crate) const NO_ROOM: u32 = 5;
pub(crate) const NO_MEMORY: u32 = 6;
pub(crate) const NO_RANGE: u32 = 7;
pub(crate) const NO_LAND: u32 = 8;
pub(crate) const NO_LOTS: u32 = 9;
pub(crate) const NO_TOWNSHIP: u32 = 10;
pub(crate) const NO_OPERATION: u32 = 11;
pub(crate) const OTHER_TOWNSHIP: u32 = 12;
pub(crate) const OTHER_PLAT: u32 = 13;
pub(crate) const EXACT: u32 = 0;
pub(crate) const BY_PLAT: u32 = 1;
pub(crate) const NORTH: u8 = 0;
pub(crate) const SOUTH: u8 = 1;
pub(crate) const EAST: u8 = 0;
pub(crate) const WEST: u8 = 1;
pub(crate) const TEXT_ROOM: usize = 256;
pub(crate) const LOTS_MOST: usize = 7;
pub(crate) const SECTIONS: usize = 36;
pub(crate) const TRACTS_MOST: usize = 1_000;
pub(crate) const NAME_MOST: usize = 64;
pub(crate) const NAME_ROOM: usize = 68;
pub(crate) const PLACES_ACROSS: usize = 32;
pub(crate) const RETURNED_MOST: usize = 1_024;
pub(crate) const BOUNDS: usize = 37;
pub(crate) const POSITION_BYTES: usize = 576;
pub(crate) const DIVIDED_BYTES: usize = 8_192;
pub(crate) const READINGS_MOST: usize = 8;
pub(crate) const RULE_HALF: u32 = 1;
pub(crate) const RULE_QUARTER: u32 = 2;
pub(crate) const RULE_DIRECTION: u32 = 3;
pub(crate) const RULE_NUMERAL: u32 = 4;
pub(crate) const RULE_COPIED: u32 = 5;
pub(crate) const RULE_COPIED_STEP: u32 = 6;
pub(crate) const RULE_DAMAGE: u32 = 7;
pub(crate) const RULE_EXCEPTION: u32 = 8;
pub(crate) const RULE_ZEROS: u32 = 9;
pub(crate) const RULE_FRACTION_DIGIT: u32 = 10;
pub(crate) const RULE_HEADING: u32 = 11;
pub(crate) const RULE_SECTION_WORD: u32 = 12;
pub(crate) const RULE_LOT_WORD: u32 = 13;
pub(crate) const RULE_THROUGH: u32 = 14;
pub(crate) const RULE_AND: u32 = 15;
pub(crate) const RULE_COMMA: u32 = 16;
pub(crate) const RULE_SEMICOLON: u32 = 17;
pub(crate) const RULE_ONE_PART: u32 = 18;
pub(crate) const RULE_MARK: u32 = 19;
pub(crate) const RULE_WORD: u32 = 20;
pub(crate) const RULE_REPEATED: u32 = 21;
pub(crate) const RULE_MOVED_SECTION: u32 = 22;
pub(crate) const RULE_MOVED_HEADING: u32 = 23;
pub(crate) const RULE_MERIDIAN: u32 = 24;
pub(crate) const RULE_ACREAGE: u32 = 25;
pub(crate) const RULE_LABEL: u32 = 26;
pub(crate) const ASSUMES_SAME_MERIDIAN: u32 = 1;
pub(crate) const ASSUMES_SAME_ACREAGE: u32 = 2;
pub(crate) const ASSUMES_NOT_LAND: u32 = 3;
pub(crate) const ASSUMES_SAID_BEFORE: u32 = 4;
pub(crate) const ASSUMES_WRONG_LETTER: u32 = 5;
pub(crate) const ASSUMES_NO_MISSING_COMMA: u32 = 6;
pub(crate) const CHANGED: u32 = 0;
pub(crate) const LOTS_NAMED: u32 = 1;
pub(crate) const REMAINDER: u32 = 2;
pub(crate) const WAYS_SECTION_OR_HALF: u32 = 1;
pub(crate) const WAYS_LOT_OR_HALF: u32 = 2;
pub(crate) const WAYS_QUARTER_OR_SECTION: u32 = 3;
pub(crate) const WAYS_NUMBER_OR_FIGURE: u32 = 4;
pub(crate) const WAYS_RANGE_OR_HALF: u32 = 5;
pub(crate) const WAYS_PART_OR_SECTION: u32 = 6;
pub(crate) const UNION: u32 = 0;
pub(crate) const INTERSECTION: u32 = 1;
pub(crate) const DIFFERENCE: u32 = 2;
pub(crate) const EQUAL: u32 = 0;
pub(crate) const CONTAINS: u32 = 1;
pub(crate) const IS_CONTAINED: u32 = 2;
pub(crate) const OVERLAPS: u32 = 3;
pub(crate) const DISJOINT: u32 = 4;
pub(crate) const SHOWN_NOTHING: u32 = 0;
pub(crate) const SHOWN_LINE: u32 = 1;
pub(crate) const SHOWN_BYTES: u32 = 2;

/// `township_plat`.
#[repr(C)]
#[derive(Clone, Debug, PartialEq, Eq, Hash)]
pub(crate) struct Plat {
    pub(crate) closing_quarters: [u32; LINES],
    pub(crate) number: u8,
    pub(crate) north_south: u8,
    pub(crate) range: u8,
    pub(crate) east_west: u8,
}

impl Plat {
    pub(crate) const BLANK: Plat = Plat {
        closing_quarters: [0; LINES],
        number: 0,
        north_south: 0,
        range: 0,
        east_west: 0,
    };
}

/// `township_answer`.
#[repr(C)]
#[derive(Clone, Copy, Debug, PartialEq, Eq, Hash)]
pub(crate) struct Answer {
    pub(crate) verdict: u32,
    pub(crate) number: u32,
    pub(crate) at: u32,
    pub(crate) inner_number: u32,
    pub(crate) inner_at: u32,
    pub(crate) line: u32,
    pub(crate) column: u32,
    pub(crate) reserved: u32,
    pub(crate) hundredths: u64,
    pub(crate) length: u64,
}

impl Answer {
    pub(crate) const BLANK: Answer = Answer {
        verdict: 0,
        number: 0,
        at: 0,
        inner_number: 0,
        inner_at: 0,
        line: 0,
        column: 0,
        reserved: 0,
        hundredths: 0,
        length: 0,
    };
}

/// `township_full_answer`.
#[repr(C)]
#[derive(Clone, Debug, PartialEq, Eq, Hash)]
pub(crate) struct FullAnswer {
    pub(crate) acres: Answer,
    pub(crate) normal: Answer,
    pub(crate) note: Answer,
    pub(crate) text: [u8; TEXT_ROOM],
}

impl FullAnswer {
    pub(crate) const BLANK: FullAnswer = FullAnswer {
        acres: Answer::BLANK,
        normal: Answer::BLANK,
        note: Answer::BLANK,
        text: [0; TEXT_ROOM],
    };
}

/// `township_fraction`.
#[repr(C)]
#[derive(Clone, Copy, Debug, PartialEq, Eq, Hash)]
pub(crate) struct Fraction {
    pub(crate) units_low: u64,
    pub(crate) units_high: u64,
    pub(crate) over: u64,
}

impl Fraction {
    pub(crate) const BLANK: Fraction = Fraction {
        units_low: 0,
        units_high: 0,
        over: 0,
    };
}

/// `township_plat_figures`.
#[repr(C)]
#[derive(Clone, Debug, PartialEq, Eq, Hash)]
pub(crate) struct PlatFigures {
    pub(crate) lots: [[u64; LOTS_MOST]; SECTIONS],
    pub(crate) sections: [u64; SECTIONS],
    pub(crate) township: u64,
}

impl PlatFigures {
    pub(crate) const BLANK: PlatFigures = PlatFigures {
        lots: [[0; LOTS_MOST]; SECTIONS],
        sections: [0; SECTIONS],
        township: 0,
    };
}

/// `township_tract`.
#[repr(C)]
#[derive(Clone, Debug, PartialEq, Eq, Hash)]
pub(crate) struct Tract {
    pub(crate) hundredths: u64,
    pub(crate) name_length: u32,
    pub(crate) name: [u8; NAME_ROOM],
}

impl Tract {
    pub(crate) const BLANK: Tract = Tract {
        hundredths: 0,
        name_length: 0,
        name: [0; NAME_ROOM],
    };
}

/// `township_totals`.
#[repr(C)]
#[derive(Clone, Copy, Debug, PartialEq, Eq, Hash)]
pub(crate) struct Totals {
    pub(crate) total: u64,
    pub(crate) remaining: u64,
}

impl Totals {
    pub(crate) const BLANK: Totals = Totals {
        total: 0,
        remaining: 0,
    };
}

/// `township_tract_answer`.
#[repr(C)]
#[derive(Clone, Debug, PartialEq, Eq, Hash)]
pub(crate) struct TractAnswer {
    pub(crate) answer: Answer,
    pub(crate) name_length: u32,
    pub(crate) name: [u8; NAME_ROOM],
}

impl TractAnswer {
    pub(crate) const BLANK: TractAnswer = TractAnswer {
        answer: Answer::BLANK,
        name_length: 0,
        name: [0; NAME_ROOM],
    };
}

/// `township_overlap`.
#[repr(C)]
#[derive(Clone, Copy, Debug, PartialEq, Eq, Hash)]
pub(crate) struct Overlap {
    pub(crate) first: u32,
    pub(crate) second: u32,
    pub(crate) hundredths: u64,
}

impl Overlap {
    pub(crate) const BLANK: Overlap = Overlap {
        first: 0,
        second: 0,
        hundredths: 0,
    };
}

/// `township_lots_overlap`.
#[repr(C)]
#[derive(Clone, Copy, Debug, PartialEq, Eq, Hash)]
pub(crate) struct LotsOverlap {
    pub(crate) first: u32,
    pub(crate) second: u32,
    pub(crate) hundredths: u64,
    pub(crate) lacking: u32,
    pub(crate) reserved: u32,
}

impl LotsOverlap {
    pub(crate) const BLANK: LotsOverlap = LotsOverlap {
        first: 0,
        second: 0,
        hundredths: 0,
        lacking: 0,
        reserved: 0,
    };
}

/// `township_designation`.
#[repr(C)]
#[derive(Clone, Copy, Debug, PartialEq, Eq, Hash)]
pub(crate) struct Designation {
    pub(crate) number: u8,
    pub(crate) north_south: u8,
    pub(crate) range: u8,
    pub(crate) east_west: u8,
}

impl Designation {
    pub(crate) const BLANK: Designation = Designation {
        number: 0,
        north_south: 0,
        range: 0,
        east_west: 0,
    };
}

/// `township_land`.
#[repr(C)]
#[derive(Clone, Debug, PartialEq, Eq, Hash)]
pub(crate) struct Land {
    pub(crate) rows: [[u32; PLACES_ACROSS]; SECTIONS],
    pub(crate) date: u32,
    pub(crate) own_lots: u32,
    pub(crate) township: Designation,
}

impl Land {
    pub(crate) const BLANK: Land = Land {
        rows: [[0; PLACES_ACROSS]; SECTIONS],
        date: 0,
        own_lots: 0,
        township: Designation::BLANK,
    };
}

/// `township_lots`.
#[repr(C)]
#[derive(Clone, Debug, PartialEq, Eq, Hash)]
pub(crate) struct Lots {
    pub(crate) figures: [u32; RETURNED_MOST],
    pub(crate) first: [u16; BOUNDS],
    pub(crate) numbers: [u8; RETURNED_MOST],
    pub(crate) positions: [u8; POSITION_BYTES],
    pub(crate) divided: [u8; DIVIDED_BYTES],
    pub(crate) mapped: u16,
    pub(crate) date: u32,
    pub(crate) township: Designation,
}

impl Lots {
    pub(crate) const BLANK: Lots = Lots {
        figures: [0; RETURNED_MOST],
        first: [0; BOUNDS],
        numbers: [0; RETURNED_MOST],
        positions: [0; POSITION_BYTES],
        divided: [0; DIVIDED_BYTES],
        mapped: 0,
        date: 0,
        township: Designation::BLANK,
    };
}

/// `township_part`.
#[repr(C)]
#[derive(Clone, Copy, Debug, PartialEq, Eq, Hash)]
pub(crate) struct Part {
    pub(crate) section: u8,
    pub(crate) lot: u8,
    pub(crate) column: u8,
    pub(crate) row: u8,
    pub(crate) columns: u8,
    pub(crate) rows: u8,
}

impl Part {
    pub(crate) const BLANK: Part = Part {
        section: 0,
        lot: 0,
        column: 0,
        row: 0,
        columns: 0,
        rows: 0,
    };
}

/// `township_change`.
#[repr(C)]
#[derive(Clone, Copy, Debug, PartialEq, Eq, Hash)]
pub(crate) struct Change {
    pub(crate) start: u64,
    pub(crate) end: u64,
    pub(crate) written: u64,
    pub(crate) written_length: u64,
    pub(crate) copied: u64,
    pub(crate) copied_end: u64,
    pub(crate) rule: u32,
    pub(crate) assumes: u32,
}

impl Change {
    pub(crate) const BLANK: Change = Change {
        start: 0,
        end: 0,
        written: 0,
        written_length: 0,
        copied: 0,
        copied_end: 0,
        rule: 0,
        assumes: 0,
    };
}

/// `township_reading`.
#[repr(C)]
#[derive(Clone, Copy, Debug, PartialEq, Eq, Hash)]
pub(crate) struct Reading {
    pub(crate) text: u64,
    pub(crate) text_length: u64,
    pub(crate) changes: u64,
    pub(crate) changes_length: u64,
    pub(crate) manner: u32,
    pub(crate) reserved: u32,
}

impl Reading {
    pub(crate) const BLANK: Reading = Reading {
        text: 0,
        text_length: 0,
        changes: 0,
        changes_length: 0,
        manner: 0,
        reserved: 0,
    };
}

/// `township_suggestion`.
#[repr(C)]
#[derive(Clone, Copy, Debug, PartialEq, Eq, Hash)]
pub(crate) struct Suggestion {
    pub(crate) readings: u64,
    pub(crate) changes: u64,
    pub(crate) bytes: u64,
    pub(crate) reason: u64,
    pub(crate) reason_length: u64,
    pub(crate) beyond: u64,
    pub(crate) beyond_end: u64,
}

impl Suggestion {
    pub(crate) const BLANK: Suggestion = Suggestion {
        readings: 0,
        changes: 0,
        bytes: 0,
        reason: 0,
        reason_length: 0,
        beyond: 0,
        beyond_end: 0,
    };
}

/// `township_stretch`.
#[repr(C)]
#[derive(Clone, Copy, Debug, PartialEq, Eq, Hash)]
pub(crate) struct Stretch {
    pub(crate) start: u64,
    pub(crate) end: u64,
    pub(crate) ways: u32,
    pub(crate) reserved: u32,
}

impl Stretch {
    pub(crate) const BLANK: Stretch = Stretch {
        start: 0,
        end: 0,
        ways: 0,
        reserved: 0,
    };
}

/// `township_explanation`.
#[repr(C)]
#[derive(Clone, Copy, Debug, PartialEq, Eq, Hash)]
pub(crate) struct Explanation {
    pub(crate) shown: u32,
    pub(crate) has_other: u32,
    pub(crate) other_record: u32,
    pub(crate) continued: u32,
    pub(crate) start: u64,
    pub(crate) end: u64,
    pub(crate) other_start: u64,
    pub(crate) other_end: u64,
    pub(crate) sentence: u64,
    pub(crate) sentence_length: u64,
    pub(crate) excerpt: u64,
    pub(crate) excerpt_length: u64,
    pub(crate) hints: u64,
    pub(crate) hints_length: u64,
    pub(crate) repair: u64,
    pub(crate) repair_length: u64,
}

impl Explanation {
    pub(crate) const BLANK: Explanation = Explanation {
        shown: 0,
        has_other: 0,
        other_record: 0,
        continued: 0,
        start: 0,
        end: 0,
        other_start: 0,
        other_end: 0,
        sentence: 0,
        sentence_length: 0,
        excerpt: 0,
        excerpt_length: 0,
        hints: 0,
        hints_length: 0,
        repair: 0,
        repair_length: 0,
    };
}

// The library is compiled for these layouts.
const _: () = assert!(size_of::<Plat>() == 340 && offset_of!(Plat, east_west) == 339);
const _: () = assert!(size_of::<Answer>() == 48 && offset_of!(Answer, length) == 40);
const _: () = assert!(size_of::<FullAnswer>() == 400 && offset_of!(FullAnswer, text) == 144);
const _: () = assert!(size_of::<Fraction>() == 24 && offset_of!(Fraction, over) == 16);
const _: () = assert!(
    size_of::<PlatFigures>() == 2312 && offset_of!(PlatFigures, township) == 2304,
);
const _: () = assert!(size_of::<Tract>() == 80 && offset_of!(Tract, name) == 12);
const _: () = assert!(size_of::<Totals>() == 16 && offset_of!(Totals, remaining) == 8);
const _: () = assert!(size_of::<TractAnswer>() == 120 && offset_of!(TractAnswer, name) == 52);
const _: () = assert!(size_of::<Overlap>() == 16 && offset_of!(Overlap, hundredths) == 8);
const _: () = assert!(size_of::<LotsOverlap>() == 24 && offset_of!(LotsOverlap, reserved) == 20);
const _: () = assert!(size_of::<Designation>() == 4 && offset_of!(Designation, east_west) == 3);
const _: () = assert!(size_of::<Land>() == 4620 && offset_of!(Land, township) == 4616);
const _: () = assert!(size_of::<Lots>() == 13972 && offset_of!(Lots, township) == 13968);
const _: () = assert!(size_of::<Part>() == 6 && offset_of!(Part, rows) == 5);
const _: () = assert!(size_of::<Change>() == 56 && offset_of!(Change, assumes) == 52);
const _: () = assert!(size_of::<Reading>() == 40 && offset_of!(Reading, reserved) == 36);
const _: () = assert!(size_of::<Suggestion>() == 56 && offset_of!(Suggestion, beyond_end) == 48);
const _: () = assert!(size_of::<Stretch>() == 24 && offset_of!(Stretch, reserved) == 20);
const _: () = assert!(
    size_of::<Explanation>() == 112 && offset_of!(Explanation, repair_length) == 104,
);

// The library requires that no pointer be null, that each point to at least as many values as its
// length parameter says, and that the memory a call writes not overlap its other arguments. Slices
// and references meet these requirements: a slice's pointer is not null even if the slice is empty,
// and a `&mut` borrow overlaps nothing else. The library keeps no pointer after it returns.
extern "C" {
    fn township_read(notes: *const u8, notes_length: usize, plat: *mut Plat) -> Answer;
    fn township_write_notes(plat: *const Plat, text: *mut u8, room: usize) -> Answer;
    fn township_acres(
        plat: *const Plat, description: *const u8, description_length: usize, account: u32,
    ) -> Answer;
    fn township_area(
        plat: *const Plat, description: *const u8, description_length: usize, account: u32,
        area: *mut Fraction,
    ) -> Answer;
    fn township_normal(
        plat: *const Plat, description: *const u8, description_length: usize, text: *mut u8,
        room: usize,
    ) -> Answer;
    fn township_print(plat: *const Plat, text: *mut u8, room: usize) -> Answer;
    fn township_report(
        plat: *const Plat, list: *const u8, list_length: usize, text: *mut u8, room: usize,
    ) -> Answer;
    fn township_account(
        plat: *const Plat, list: *const u8, list_length: usize, tracts: *mut Tract, room: usize,
        totals: *mut Totals,
    ) -> Answer;
    fn township_report_each(
        plat: *const Plat, list: *const u8, list_length: usize, answers: *mut TractAnswer,
        room: usize,
    ) -> Answer;
    fn township_overlaps(
        plat: *const Plat, list: *const u8, list_length: usize, overlaps: *mut Overlap, room: usize,
    ) -> Answer;
    fn township_figures(plat: *const Plat, figures: *mut PlatFigures) -> Answer;
    fn township_acres_many(
        plat: *const Plat, descriptions: *const u8, descriptions_length: usize,
        offsets: *const usize, offsets_length: usize, account: u32, answers: *mut Answer,
        room: usize,
    ) -> Answer;
    fn township_answer_many(
        plat: *const Plat, descriptions: *const u8, descriptions_length: usize,
        offsets: *const usize, offsets_length: usize, account: u32, answers: *mut FullAnswer,
        room: usize,
    ) -> Answer;
    fn township_designation_read(
        text: *const u8, text_length: usize, township: *mut Designation,
    ) -> Answer;
    fn township_designation_text(
        township: *const Designation, text: *mut u8, room: usize,
    ) -> Answer;
    fn township_land_read(
        township: *const Designation, description: *const u8, description_length: usize,
        land: *mut Land,
    ) -> Answer;
    fn township_land_acres(plat: *const Plat, land: *const Land, account: u32) -> Answer;
    fn township_land_area(
        plat: *const Plat, land: *const Land, account: u32, area: *mut Fraction,
    ) -> Answer;
    fn township_land_text(land: *const Land, text: *mut u8, room: usize) -> Answer;
    fn township_land_parts(land: *const Land, parts: *mut Part, room: usize) -> Answer;
    fn township_land_combine(
        first: *const Land, second: *const Land, operation: u32, land: *mut Land,
    ) -> Answer;
    fn township_land_compare(
        first: *const Land, second: *const Land, comparison: *mut u32,
    ) -> Answer;
    fn township_lots_read(table: *const u8, table_length: usize, lots: *mut Lots) -> Answer;
    fn township_lots_plain(
        table: *const u8, table_length: usize, text: *mut u8, room: usize,
    ) -> Answer;
    fn township_lots_land_read(
        lots: *const Lots, description: *const u8, description_length: usize, land: *mut Land,
    ) -> Answer;
    fn township_lots_land_text(
        lots: *const Lots, land: *const Land, text: *mut u8, room: usize,
    ) -> Answer;
    fn township_lots_acres(
        lots: *const Lots, description: *const u8, description_length: usize,
    ) -> Answer;
    fn township_lots_area(
        lots: *const Lots, description: *const u8, description_length: usize, area: *mut Fraction,
    ) -> Answer;
    fn township_lots_land_acres(lots: *const Lots, land: *const Land) -> Answer;
    fn township_lots_land_area(lots: *const Lots, land: *const Land, area: *mut Fraction) -> Answer;
    fn township_lots_report(
        lots: *const Lots, list: *const u8, list_length: usize, tracts: *mut Tract, room: usize,
    ) -> Answer;
    fn township_lots_report_each(
        lots: *const Lots, list: *const u8, list_length: usize, answers: *mut TractAnswer,
        room: usize,
    ) -> Answer;
    fn township_lots_overlaps(
        lots: *const Lots, list: *const u8, list_length: usize, overlaps: *mut LotsOverlap,
        room: usize,
    ) -> Answer;
    fn township_lots_acres_many(
        lots: *const Lots, descriptions: *const u8, descriptions_length: usize,
        offsets: *const usize, offsets_length: usize, answers: *mut Answer, room: usize,
    ) -> Answer;
    fn township_lots_answer_many(
        lots: *const Lots, descriptions: *const u8, descriptions_length: usize,
        offsets: *const usize, offsets_length: usize, answers: *mut FullAnswer, room: usize,
    ) -> Answer;
    fn township_explain_notes(
        notes: *const u8, notes_length: usize, name: *const u8, name_length: usize, text: *mut u8,
        room: usize,
    ) -> Answer;
    fn township_explain_description(
        plat: *const Plat, description: *const u8, description_length: usize, name: *const u8,
        name_length: usize, text: *mut u8, room: usize,
    ) -> Answer;
    fn township_explain_list(
        plat: *const Plat, list: *const u8, list_length: usize, name: *const u8, name_length: usize,
        text: *mut u8, room: usize,
    ) -> Answer;
    fn township_explain_lots(
        table: *const u8, table_length: usize, name: *const u8, name_length: usize, text: *mut u8,
        room: usize,
    ) -> Answer;
    fn township_explain_lacking(
        lots: *const Lots, at: u32, name: *const u8, name_length: usize, text: *mut u8, room: usize,
    ) -> Answer;
    fn township_lots_explain_description(
        lots: *const Lots, description: *const u8, description_length: usize, name: *const u8,
        name_length: usize, text: *mut u8, room: usize,
    ) -> Answer;
    fn township_lots_explain_list(
        lots: *const Lots, list: *const u8, list_length: usize, name: *const u8, name_length: usize,
        text: *mut u8, room: usize,
    ) -> Answer;
    fn township_explain_notes_parts(
        notes: *const u8, notes_length: usize, name: *const u8, name_length: usize, text: *mut u8,
        room: usize, explanation: *mut Explanation,
    ) -> Answer;
    fn township_explain_description_parts(
        plat: *const Plat, description: *const u8, description_length: usize, name: *const u8,
        name_length: usize, text: *mut u8, room: usize, explanation: *mut Explanation,
    ) -> Answer;
    fn township_explain_list_parts(
        plat: *const Plat, list: *const u8, list_length: usize, name: *const u8, name_length: usize,
        text: *mut u8, room: usize, explanation: *mut Explanation,
    ) -> Answer;
    fn township_explain_lots_parts(
        table: *const u8, table_length: usize, name: *const u8, name_length: usize, text: *mut u8,
        room: usize, explanation: *mut Explanation,
    ) -> Answer;
    fn township_explain_lacking_parts(
        lots: *const Lots, at: u32, name: *const u8, name_length: usize, text: *mut u8, room: usize,
        explanation: *mut Explanation,
    ) -> Answer;
    fn township_lots_explain_description_parts(
        lots: *const Lots, description: *const u8, description_length: usize, name: *const u8,
        name_length: usize, text: *mut u8, room: usize, explanation: *mut Explanation,
    ) -> Answer;
    fn township_lots_explain_list_parts(
        lots: *const Lots, list: *const u8, list_length: usize, name: *const u8, name_length: usize,
        text: *mut u8, room: usize, explanation: *mut Explanation,
    ) -> Answer;
    fn township_suggest(
        description: *const u8, description_length: usize, readings: *mut Reading,
        readings_room: usize, changes: *mut Change, changes_room: usize, bytes: *mut u8,
        bytes_room: usize, suggestion: *mut Suggestion,
    ) -> Answer;
    fn township_lots_suggest(
        lots: *const Lots, description: *const u8, description_length: usize,
        readings: *mut Reading, readings_room: usize, changes: *mut Change, changes_room: usize,
        bytes: *mut u8, bytes_room: usize, suggestion: *mut Suggestion,
    ) -> Answer;
    fn township_unread(
        description: *const u8, description_length: usize, unread: *mut Stretch, room: usize,
    ) -> Answer;
    fn township_set_aside(
        description: *const u8, description_length: usize, phrases: *const u8,
        phrases_length: usize, offsets: *const usize, offsets_length: usize, aside: *mut Stretch,
        room: usize,
    ) -> Answer;
    fn township_split(
        description: *const u8, description_length: usize, parts: *mut Stretch, room: usize,
    ) -> Answer;
    fn township_version(text: *mut u8, room: usize) -> Answer;
}

/// Calls `township_read`.
pub(crate) fn read(notes: &[u8]) -> (Answer, Plat) {
    let mut plat = Plat::BLANK;
    // SAFETY: slices and references meet the library's requirements.
    let answer = unsafe {
        township_read(notes.as_ptr(), notes.len(), &mut plat)
    };
    (answer, plat)
}

/// Calls `township_write_notes`.
pub(crate) fn write_notes(plat: &Plat, text: &mut [u8]) -> Answer {
    // SAFETY: slices and references meet the library's requirements.
    unsafe {
        township_write_notes(plat, text.as_mut_ptr(), text.len())
    }
}

/// Calls `township_acres`.
pub(crate) fn acres(plat: &Plat, description: &[u8], account: u32) -> Answer {
    // SAFETY: slices and references meet the library's requirements.
    unsafe {
        township_acres(plat, description.as_ptr(), description.len(), account)
    }
}

/// Calls `township_area`.
pub(crate) fn area(plat: &Plat, description: &[u8], account: u32) -> (Answer, Fraction) {
    let mut area = Fraction::BLANK;
    // SAFETY: slices and references meet the library's requirements.
    let answer = unsafe {
        township_area(plat, description.as_ptr(), description.len(), account, &mut area)
    };
    (answer, area)
}

/// Calls `township_normal`.
pub(crate) fn normal(plat: &Plat, description: &[u8], text: &mut [u8]) -> Answer {
    // SAFETY: slices and references meet the library's requirements.
    unsafe {
        township_normal(
            plat, description.as_ptr(), description.len(), text.as_mut_ptr(), text.len(),
        )
    }
}

/// Calls `township_print`.
pub(crate) fn print_plat(plat: &Plat, text: &mut [u8]) -> Answer {
    // SAFETY: slices and references meet the library's requirements.
    unsafe {
        township_print(plat, text.as_mut_ptr(), text.len())
    }
}

/// Calls `township_report`.
pub(crate) fn report(plat: &Plat, list: &[u8], text: &mut [u8]) -> Answer {
    // SAFETY: slices and references meet the library's requirements.
    unsafe {
        township_report(plat, list.as_ptr(), list.len(), text.as_mut_ptr(), text.len())
    }
}

/// Calls `township_account`.
pub(crate) fn account(plat: &Plat, list: &[u8], tracts: &mut [Tract]) -> (Answer, Totals) {
    let mut totals = Totals::BLANK;
    // SAFETY: slices and references meet the library's requirements.
    let answer = unsafe {
        township_account(
            plat, list.as_ptr(), list.len(), tracts.as_mut_ptr(), tracts.len(), &mut totals,
        )
    };
    (answer, totals)
}

/// Calls `township_report_each`.
pub(crate) fn report_each(plat: &Plat, list: &[u8], answers: &mut [TractAnswer]) -> Answer {
    // SAFETY: slices and references meet the library's requirements.
    unsafe {
        township_report_each(plat, list.as_ptr(), list.len(), answers.as_mut_ptr(), answers.len())
    }
}

/// Calls `township_overlaps`.
pub(crate) fn overlaps(plat: &Plat, list: &[u8], overlaps: &mut [Overlap]) -> Answer {
    // SAFETY: slices and references meet the library's requirements.
    unsafe {
        township_overlaps(plat, list.as_ptr(), list.len(), overlaps.as_mut_ptr(), overlaps.len())
    }
}

/// Calls `township_figures`.
pub(crate) fn figures(plat: &Plat) -> (Answer, PlatFigures) {
    let mut figures = PlatFigures::BLANK;
    // SAFETY: slices and references meet the library's requirements.
    let answer = unsafe {
        township_figures(plat, &mut figures)
    };
    (answer, figures)
}

/// Calls `township_acres_many`.
pub(crate) fn acres_many(
    plat: &Plat, descriptions: &[u8], offsets: &[usize], account: u32, answers: &mut [Answer],
) -> Answer {
    // SAFETY: slices and references meet the library's requirements.
    unsafe {
        township_acres_many(
            plat, descriptions.as_ptr(), descriptions.len(), offsets.as_ptr(), offsets.len(),
            account, answers.as_mut_ptr(), answers.len(),
        )
    }
}

/// Calls `township_answer_many`.
pub(crate) fn answer_many(
    plat: &Plat, descriptions: &[u8], offsets: &[usize], account: u32, answers: &mut [FullAnswer],
) -> Answer {
    // SAFETY: slices and references meet the library's requirements.
    unsafe {
        township_answer_many(
            plat, descriptions.as_ptr(), descriptions.len(), offsets.as_ptr(), offsets.len(),
            account, answers.as_mut_ptr(), answers.len(),
        )
    }
}

/// Calls `township_designation_read`.
pub(crate) fn designation_read(text: &[u8]) -> (Answer, Designation) {
    let mut township = Designation::BLANK;
    // SAFETY: slices and references meet the library's requirements.
    let answer = unsafe {
        township_designation_read(text.as_ptr(), text.len(), &mut township)
    };
    (answer, township)
}

/// Calls `township_designation_text`.
pub(crate) fn designation_text(township: &Designation, text: &mut [u8]) -> Answer {
    // SAFETY: slices and references meet the library's requirements.
    unsafe {
        township_designation_text(township, text.as_mut_ptr(), text.len())
    }
}

/// Calls `township_land_read`.
pub(crate) fn land_read(township: &Designation, description: &[u8]) -> (Answer, Land) {
    let mut land = Land::BLANK;
    // SAFETY: slices and references meet the library's requirements.
    let answer = unsafe {
        township_land_read(township, description.as_ptr(), description.len(), &mut land)
    };
    (answer, land)
}

/// Calls `township_land_acres`.
pub(crate) fn land_acres(plat: &Plat, land: &Land, account: u32) -> Answer {
    // SAFETY: slices and references meet the library's requirements.
    unsafe {
        township_land_acres(plat, land, account)
    }
}

/// Calls `township_land_area`.
pub(crate) fn land_area(plat: &Plat, land: &Land, account: u32) -> (Answer, Fraction) {
    let mut area = Fraction::BLANK;
    // SAFETY: slices and references meet the library's requirements.
    let answer = unsafe {
        township_land_area(plat, land, account, &mut area)
    };
    (answer, area)
}

/// Calls `township_land_text`.
pub(crate) fn land_text(land: &Land, text: &mut [u8]) -> Answer {
    // SAFETY: slices and references meet the library's requirements.
    unsafe {
        township_land_text(land, text.as_mut_ptr(), text.len())
    }
}

/// Calls `township_land_parts`.
pub(crate) fn land_parts(land: &Land, parts: &mut [Part]) -> Answer {
    // SAFETY: slices and references meet the library's requirements.
    unsafe {
        township_land_parts(land, parts.as_mut_ptr(), parts.len())
    }
}

/// Calls `township_land_combine`.
pub(crate) fn land_combine(first: &Land, second: &Land, operation: u32) -> (Answer, Land) {
    let mut land = Land::BLANK;
    // SAFETY: slices and references meet the library's requirements.
    let answer = unsafe {
        township_land_combine(first, second, operation, &mut land)
    };
    (answer, land)
}

/// Calls `township_land_compare`.
pub(crate) fn land_compare(first: &Land, second: &Land) -> (Answer, u32) {
    let mut comparison = 0;
    // SAFETY: slices and references meet the library's requirements.
    let answer = unsafe {
        township_land_compare(first, second, &mut comparison)
    };
    (answer, comparison)
}

/// Calls `township_lots_read`.
pub(crate) fn lots_read(table: &[u8]) -> (Answer, Lots) {
    let mut lots = Lots::BLANK;
    // SAFETY: slices and references meet the library's requirements.
    let answer = unsafe {
        township_lots_read(table.as_ptr(), table.len(), &mut lots)
    };
    (answer, lots)
}

/// Calls `township_lots_plain`.
pub(crate) fn lots_plain(table: &[u8], text: &mut [u8]) -> Answer {
    // SAFETY: slices and references meet the library's requirements.
    unsafe {
        township_lots_plain(table.as_ptr(), table.len(), text.as_mut_ptr(), text.len())
    }
}

/// Calls `township_lots_land_read`.
pub(crate) fn lots_land_read(lots: &Lots, description: &[u8]) -> (Answer, Land) {
    let mut land = Land::BLANK;
    // SAFETY: slices and references meet the library's requirements.
    let answer = unsafe {
        township_lots_land_read(lots, description.as_ptr(), description.len(), &mut land)
    };
    (answer, land)
}

/// Calls `township_lots_land_text`.
pub(crate) fn lots_land_text(lots: &Lots, land: &Land, text: &mut [u8]) -> Answer {
    // SAFETY: slices and references meet the library's requirements.
    unsafe {
        township_lots_land_text(lots, land, text.as_mut_ptr(), text.len())
    }
}

/// Calls `township_lots_acres`.
pub(crate) fn lots_acres(lots: &Lots, description: &[u8]) -> Answer {
    // SAFETY: slices and references meet the library's requirements.
    unsafe {
        township_lots_acres(lots, description.as_ptr(), description.len())
    }
}

/// Calls `township_lots_area`.
pub(crate) fn lots_area(lots: &Lots, description: &[u8]) -> (Answer, Fraction) {
    let mut area = Fraction::BLANK;
    // SAFETY: slices and references meet the library's requirements.
    let answer = unsafe {
        township_lots_area(lots, description.as_ptr(), description.len(), &mut area)
    };
    (answer, area)
}

/// Calls `township_lots_land_acres`.
pub(crate) fn lots_land_acres(lots: &Lots, land: &Land) -> Answer {
    // SAFETY: slices and references meet the library's requirements.
    unsafe {
        township_lots_land_acres(lots, land)
    }
}

/// Calls `township_lots_land_area`.
pub(crate) fn lots_land_area(lots: &Lots, land: &Land) -> (Answer, Fraction) {
    let mut area = Fraction::BLANK;
    // SAFETY: slices and references meet the library's requirements.
    let answer = unsafe {
        township_lots_land_area(lots, land, &mut area)
    };
    (answer, area)
}

/// Calls `township_lots_report`.
pub(crate) fn lots_report(lots: &Lots, list: &[u8], tracts: &mut [Tract]) -> Answer {
    // SAFETY: slices and references meet the library's requirements.
    unsafe {
        township_lots_report(lots, list.as_ptr(), list.len(), tracts.as_mut_ptr(), tracts.len())
    }
}

/// Calls `township_lots_report_each`.
pub(crate) fn lots_report_each(lots: &Lots, list: &[u8], answers: &mut [TractAnswer]) -> Answer {
    // SAFETY: slices and references meet the library's requirements.
    unsafe {
        township_lots_report_each(
            lots, list.as_ptr(), list.len(), answers.as_mut_ptr(), answers.len(),
        )
    }
}

/// Calls `township_lots_overlaps`.
pub(crate) fn lots_overlaps(lots: &Lots, list: &[u8], overlaps: &mut [LotsOverlap]) -> Answer {
    // SAFETY: slices and references meet the library's requirements.
    unsafe {
        township_lots_overlaps(
            lots, list.as_ptr(), list.len(), overlaps.as_mut_ptr(), overlaps.len(),
        )
    }
}

/// Calls `township_lots_acres_many`.
pub(crate) fn lots_acres_many(
    lots: &Lots, descriptions: &[u8], offsets: &[usize], answers: &mut [Answer],
) -> Answer {
    // SAFETY: slices and references meet the library's requirements.
    unsafe {
        township_lots_acres_many(
            lots, descriptions.as_ptr(), descriptions.len(), offsets.as_ptr(), offsets.len(),
            answers.as_mut_ptr(), answers.len(),
        )
    }
}

/// Calls `township_lots_answer_many`.
pub(crate) fn lots_answer_many(
    lots: &Lots, descriptions: &[u8], offsets: &[usize], answers: &mut [FullAnswer],
) -> Answer {
    // SAFETY: slices and references meet the library's requirements.
    unsafe {
        township_lots_answer_many(
            lots, descriptions.as_ptr(), descriptions.len(), offsets.as_ptr(), offsets.len(),
            answers.as_mut_ptr(), answers.len(),
        )
    }
}

/// Calls `township_explain_notes`.
pub(crate) fn explain_notes(notes: &[u8], name: &[u8], text: &mut [u8]) -> Answer {
    // SAFETY: slices and references meet the library's requirements.
    unsafe {
        township_explain_notes(
            notes.as_ptr(), notes.len(), name.as_ptr(), name.len(), text.as_mut_ptr(), text.len(),
        )
    }
}

/// Calls `township_explain_description`.
pub(crate) fn explain_description(
    plat: &Plat, description: &[u8], name: &[u8], text: &mut [u8],
) -> Answer {
    // SAFETY: slices and references meet the library's requirements.
    unsafe {
        township_explain_description(
            plat, description.as_ptr(), description.len(), name.as_ptr(), name.len(),
            text.as_mut_ptr(), text.len(),
        )
    }
}

/// Calls `township_explain_list`.
pub(crate) fn explain_list(plat: &Plat, list: &[u8], name: &[u8], text: &mut [u8]) -> Answer {
    // SAFETY: slices and references meet the library's requirements.
    unsafe {
        township_explain_list(
            plat, list.as_ptr(), list.len(), name.as_ptr(), name.len(), text.as_mut_ptr(),
            text.len(),
        )
    }
}

/// Calls `township_explain_lots`.
pub(crate) fn explain_lots(table: &[u8], name: &[u8], text: &mut [u8]) -> Answer {
    // SAFETY: slices and references meet the library's requirements.
    unsafe {
        township_explain_lots(
            table.as_ptr(), table.len(), name.as_ptr(), name.len(), text.as_mut_ptr(), text.len(),
        )
    }
}

/// Calls `township_explain_lacking`.
pub(crate) fn explain_lacking(lots: &Lots, at: u32, name: &[u8], text: &mut [u8]) -> Answer {
    // SAFETY: slices and references meet the library's requirements.
    unsafe {
        township_explain_lacking(lots, at, name.as_ptr(), name.len(), text.as_mut_ptr(), text.len())
    }
}

/// Calls `township_lots_explain_description`.
pub(crate) fn lots_explain_description(
    lots: &Lots, description: &[u8], name: &[u8], text: &mut [u8],
) -> Answer {
    // SAFETY: slices and references meet the library's requirements.
    unsafe {
        township_lots_explain_description(
            lots, description.as_ptr(), description.len(), name.as_ptr(), name.len(),
            text.as_mut_ptr(), text.len(),
        )
    }
}

/// Calls `township_lots_explain_list`.
pub(crate) fn lots_explain_list(lots: &Lots, list: &[u8], name: &[u8], text: &mut [u8]) -> Answer {
    // SAFETY: slices and references meet the library's requirements.
    unsafe {
        township_lots_explain_list(
            lots, list.as_ptr(), list.len(), name.as_ptr(), name.len(), text.as_mut_ptr(),
            text.len(),
        )
    }
}

/// Calls `township_explain_notes_parts`.
pub(crate) fn explain_notes_parts(
    notes: &[u8], name: &[u8], text: &mut [u8],
) -> (Answer, Explanation) {
    let mut explanation = Explanation::BLANK;
    // SAFETY: slices and references meet the library's requirements.
    let answer = unsafe {
        township_explain_notes_parts(
            notes.as_ptr(), notes.len(), name.as_ptr(), name.len(), text.as_mut_ptr(), text.len(),
            &mut explanation,
        )
    };
    (answer, explanation)
}

/// Calls `township_explain_description_parts`.
pub(crate) fn explain_description_parts(
    plat: &Plat, description: &[u8], name: &[u8], text: &mut [u8],
) -> (Answer, Explanation) {
    let mut explanation = Explanation::BLANK;
    // SAFETY: slices and references meet the library's requirements.
    let answer = unsafe {
        township_explain_description_parts(
            plat, description.as_ptr(), description.len(), name.as_ptr(), name.len(),
            text.as_mut_ptr(), text.len(), &mut explanation,
        )
    };
    (answer, explanation)
}

/// Calls `township_explain_list_parts`.
pub(crate) fn explain_list_parts(
    plat: &Plat, list: &[u8], name: &[u8], text: &mut [u8],
) -> (Answer, Explanation) {
    let mut explanation = Explanation::BLANK;
    // SAFETY: slices and references meet the library's requirements.
    let answer = unsafe {
        township_explain_list_parts(
            plat, list.as_ptr(), list.len(), name.as_ptr(), name.len(), text.as_mut_ptr(),
            text.len(), &mut explanation,
        )
    };
    (answer, explanation)
}

/// Calls `township_explain_lots_parts`.
pub(crate) fn explain_lots_parts(
    table: &[u8], name: &[u8], text: &mut [u8],
) -> (Answer, Explanation) {
    let mut explanation = Explanation::BLANK;
    // SAFETY: slices and references meet the library's requirements.
    let answer = unsafe {
        township_explain_lots_parts(
            table.as_ptr(), table.len(), name.as_ptr(), name.len(), text.as_mut_ptr(), text.len(),
            &mut explanation,
        )
    };
    (answer, explanation)
}

/// Calls `township_explain_lacking_parts`.
pub(crate) fn explain_lacking_parts(
    lots: &Lots, at: u32, name: &[u8], text: &mut [u8],
) -> (Answer, Explanation) {
    let mut explanation = Explanation::BLANK;
    // SAFETY: slices and references meet the library's requirements.
    let answer = unsafe {
        township_explain_lacking_parts(
            lots, at, name.as_ptr(), name.len(), text.as_mut_ptr(), text.len(), &mut explanation,
        )
    };
    (answer, explanation)
}

/// Calls `township_lots_explain_description_parts`.
pub(crate) fn lots_explain_description_parts(
    lots: &Lots, description: &[u8], name: &[u8], text: &mut [u8],
) -> (Answer, Explanation) {
    let mut explanation = Explanation::BLANK;
    // SAFETY: slices and references meet the library's requirements.
    let answer = unsafe {
        township_lots_explain_description_parts(
            lots, description.as_ptr(), description.len(), name.as_ptr(), name.len(),
            text.as_mut_ptr(), text.len(), &mut explanation,
        )
    };
    (answer, explanation)
}

/// Calls `township_lots_explain_list_parts`.
pub(crate) fn lots_explain_list_parts(
    lots: &Lots, list: &[u8], name: &[u8], text: &mut [u8],
) -> (Answer, Explanation) {
    let mut explanation = Explanation::BLANK;
    // SAFETY: slices and references meet the library's requirements.
    let answer = unsafe {
        township_lots_explain_list_parts(
            lots, list.as_ptr(), list.len(), name.as_ptr(), name.len(), text.as_mut_ptr(),
            text.len(), &mut explanation,
        )
    };
    (answer, explanation)
}

/// Calls `township_suggest`.
pub(crate) fn suggest(
    description: &[u8], readings: &mut [Reading], changes: &mut [Change], bytes: &mut [u8],
) -> (Answer, Suggestion) {
    let mut suggestion = Suggestion::BLANK;
    // SAFETY: slices and references meet the library's requirements.
    let answer = unsafe {
        township_suggest(
            description.as_ptr(), description.len(), readings.as_mut_ptr(), readings.len(),
            changes.as_mut_ptr(), changes.len(), bytes.as_mut_ptr(), bytes.len(), &mut suggestion,
        )
    };
    (answer, suggestion)
}

/// Calls `township_lots_suggest`.
pub(crate) fn lots_suggest(
    lots: &Lots, description: &[u8], readings: &mut [Reading], changes: &mut [Change],
    bytes: &mut [u8],
) -> (Answer, Suggestion) {
    let mut suggestion = Suggestion::BLANK;
    // SAFETY: slices and references meet the library's requirements.
    let answer = unsafe {
        township_lots_suggest(
            lots, description.as_ptr(), description.len(), readings.as_mut_ptr(), readings.len(),
            changes.as_mut_ptr(), changes.len(), bytes.as_mut_ptr(), bytes.len(), &mut suggestion,
        )
    };
    (answer, suggestion)
}

/// Calls `township_unread`.
pub(crate) fn unread(description: &[u8], unread: &mut [Stretch]) -> Answer {
    // SAFETY: slices and references meet the library's requirements.
    unsafe {
        township_unread(description.as_ptr(), description.len(), unread.as_mut_ptr(), unread.len())
    }
}

/// Calls `township_set_aside`.
pub(crate) fn set_aside(
    description: &[u8], phrases: &[u8], offsets: &[usize], aside: &mut [Stretch],
) -> Answer {
    // SAFETY: slices and references meet the library's requirements.
    unsafe {
        township_set_aside(
            description.as_ptr(), description.len(), phrases.as_ptr(), phrases.len(),
            offsets.as_ptr(), offsets.len(), aside.as_mut_ptr(), aside.len(),
        )
    }
}

/// Calls `township_split`.
pub(crate) fn split(description: &[u8], parts: &mut [Stretch]) -> Answer {
    // SAFETY: slices and references meet the library's requirements.
    unsafe {
        township_split(description.as_ptr(), description.len(), parts.as_mut_ptr(), parts.len())
    }
}

/// Calls `township_version`.
pub(crate) fn version(text: &mut [u8]) -> Answer {
    // SAFETY: slices and references meet the library's requirements.
    unsafe {
        township_version(text.as_mut_ptr(), text.len())
    }
}
