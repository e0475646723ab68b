"""The library's constants, structs, and calls. Made from include/township.h by tools/bindings.py, not by hand."""
from __future__ import annotations

import ctypes
from ctypes import POINTER, c_char, c_char_p, c_size_t, c_uint8, c_uint16, c_uint32, c_uint64
from typing import Any, Callable

from ._loading import LIBRARY

REFUSAL_NOTES_TOO_LARGE = 1
REFUSAL_NOTES_EMPTY = 2
REFUSAL_NOTES_HEADING = 3
REFUSAL_NOTES_COLUMNS = 4
REFUSAL_NOTES_TOWNSHIP = 5
REFUSAL_NOTES_RUN = 6
REFUSAL_NOTES_SECTION = 7
REFUSAL_NOTES_NO_LINE = 8
REFUSAL_NOTES_LENGTH = 9
REFUSAL_NOTES_REPEATED = 10
REFUSAL_NOTES_MISSING = 11
REFUSAL_PLAT_IRREGULAR = 21
REFUSAL_PLAT_CLOSING_SHORT = 22
REFUSAL_PLAT_CLOSING_LONG = 23
REFUSAL_DESIGNATION_NUMBER = 31
REFUSAL_DESIGNATION_DIRECTION = 32
REFUSAL_DESIGNATION_RANGE = 33
REFUSAL_DESIGNATION_RANGE_DIRECTION = 34
REFUSAL_DESIGNATION_AFTER = 35
REFUSAL_DESIGNATION_TOO_LARGE = 36
REFUSAL_SPLIT_NO_HEADING = 38
REFUSAL_SPLIT_TOO_LARGE = 39
REFUSAL_TEXT_TOO_LARGE = 41
REFUSAL_TEXT_BAD_BYTE = 42
REFUSAL_TEXT_BAD_NUMBER = 43
REFUSAL_TEXT_SYNTAX = 44
REFUSAL_PHRASES_TOO_LARGE = 50
REFUSAL_PHRASES_NAMES_LAND = 51
REFUSAL_LAND_OTHER_TOWNSHIP = 61
REFUSAL_LAND_NO_SECTION = 62
REFUSAL_LAND_BACKWARD = 63
REFUSAL_LAND_NO_LOT = 64
REFUSAL_LAND_TOO_FINE = 65
REFUSAL_LAND_ON_LOT = 66
REFUSAL_LAND_OVERLAP = 67
REFUSAL_LAND_NO_LAND = 68
REFUSAL_TRACTS_TOO_LARGE = 80
REFUSAL_TRACT_ROW = 81
REFUSAL_NAME_REPEATED = 82
REFUSAL_TRACT_REFUSED = 83
REFUSAL_TRACTS_OVERLAP = 84
REFUSAL_TOO_MANY_TRACTS = 85
REFUSAL_LOTS_TOO_LARGE = 86
REFUSAL_LOTS_EMPTY = 87
REFUSAL_LOTS_HEADING = 88
REFUSAL_LOTS_COLUMNS = 89
REFUSAL_LOTS_TOWNSHIP = 90
REFUSAL_LOTS_NO_LOT = 91
REFUSAL_LOTS_ACRES = 92
REFUSAL_LOTS_REPEATED = 93
REFUSAL_LOTS_LACKING = 94
REFUSAL_LOTS_DATE = 95
REFUSAL_LOTS_LAND = 96
REFUSAL_LOTS_TOO_FINE = 97
REFUSAL_LOTS_SHARED = 98
REFUSAL_LOTS_TOO_MANY = 99
REFUSAL_LOTS_UNFILLED = 100
REFUSAL_LOTS_DIVIDED = 101
LINES = 84
NOTES_MOST = 65_536
DESCRIPTION_MOST = 65_536
LIST_MOST = 1_048_576
LOTS_TEXT_MOST = 65_536
SPLIT_MOST = 1_048_576
ACCEPTED = 0
REFUSED = 1
TRACT_REFUSED = 2
NO_PLAT = 3
NO_ACCOUNT = 4
NO_ROOM = 5
NO_MEMORY = 6
NO_RANGE = 7
NO_LAND = 8
NO_LOTS = 9
NO_TOWNSHIP = 10
NO_OPERATION = 11
OTHER_TOWNSHIP = 12
OTHER_PLAT = 13
EXACT = 0
BY_PLAT = 1
NORTH = 0
SOUTH = 1
EAST = 0
WEST = 1
TEXT_ROOM = 256
LOTS_MOST = 7
SECTIONS = 36
TRACTS_MOST = 1_000
NAME_MOST = 64
NAME_ROOM = 68
PLACES_ACROSS = 32
RETURNED_MOST = 1_024
BOUNDS = 37
POSITION_BYTES = 576
DIVIDED_BYTES = 8_192
READINGS_MOST = 8
RULE_HALF = 1
RULE_QUARTER = 2
RULE_DIRECTION = 3
RULE_NUMERAL = 4
RULE_COPIED = 5
RULE_COPIED_STEP = 6
RULE_DAMAGE = 7
RULE_EXCEPTION = 8
RULE_ZEROS = 9
RULE_FRACTION_DIGIT = 10
RULE_HEADING = 11
RULE_SECTION_WORD = 12
RULE_LOT_WORD = 13
RULE_THROUGH = 14
RULE_AND = 15
RULE_COMMA = 16
RULE_SEMICOLON = 17
RULE_ONE_PART = 18
RULE_MARK = 19
RULE_WORD = 20
RULE_REPEATED = 21
RULE_MOVED_SECTION = 22
RULE_MOVED_HEADING = 23
RULE_MERIDIAN = 24
RULE_ACREAGE = 25
RULE_LABEL = 26
ASSUMES_SAME_MERIDIAN = 1
ASSUMES_SAME_ACREAGE = 2
ASSUMES_NOT_LAND = 3
ASSUMES_SAID_BEFORE = 4
ASSUMES_WRONG_LETTER = 5
ASSUMES_NO_MISSING_COMMA = 6
CHANGED = 0
LOTS_NAMED = 1
REMAINDER = 2
WAYS_SECTION_OR_HALF = 1
WAYS_LOT_OR_HALF = 2
WAYS_QUARTER_OR_SECTION = 3
WAYS_NUMBER_OR_FIGURE = 4
WAYS_RANGE_OR_HALF = 5
WAYS_PART_OR_SECTION = 6
UNION = 0
INTERSECTION = 1
DIFFERENCE = 2
EQUAL = 0
CONTAINS = 1
IS_CONTAINED = 2
OVERLAPS = 3
DISJOINT = 4
SHOWN_NOTHING = 0
SHOWN_LINE = 1
SHOWN_BYTES = 2


class Plat(ctypes.Structure):
    """`township_plat`: 340 bytes."""

    _fields_ = [
        ("closing_quarters", c_uint32 * LINES), ("number", c_uint8), ("north_south", c_uint8), ("range", c_uint8),
        ("east_west", c_uint8),
    ]


class Answer(ctypes.Structure):
    """`township_answer`: 48 bytes."""

    _fields_ = [
        ("verdict", c_uint32), ("number", c_uint32), ("at", c_uint32), ("inner_number", c_uint32),
        ("inner_at", c_uint32), ("line", c_uint32), ("column", c_uint32), ("reserved", c_uint32),
        ("hundredths", c_uint64), ("length", c_uint64),
    ]


class FullAnswer(ctypes.Structure):
    """`township_full_answer`: 400 bytes."""

    _fields_ = [("acres", Answer), ("normal", Answer), ("note", Answer), ("text", c_uint8 * TEXT_ROOM)]


class Fraction(ctypes.Structure):
    """`township_fraction`: 24 bytes."""

    _fields_ = [("units_low", c_uint64), ("units_high", c_uint64), ("over", c_uint64)]


class PlatFigures(ctypes.Structure):
    """`township_plat_figures`: 2,312 bytes."""

    _fields_ = [("lots", c_uint64 * LOTS_MOST * SECTIONS), ("sections", c_uint64 * SECTIONS), ("township", c_uint64)]


class Tract(ctypes.Structure):
    """`township_tract`: 80 bytes."""

    _fields_ = [("hundredths", c_uint64), ("name_length", c_uint32), ("name", c_char * NAME_ROOM)]


class Totals(ctypes.Structure):
    """`township_totals`: 16 bytes."""

    _fields_ = [("total", c_uint64), ("remaining", c_uint64)]


class TractAnswer(ctypes.Structure):
    """`township_tract_answer`: 120 bytes."""

    _fields_ = [("answer", Answer), ("name_length", c_uint32), ("name", c_char * NAME_ROOM)]


class Overlap(ctypes.Structure):
    """`township_overlap`: 16 bytes."""

    _fields_ = [("first", c_uint32), ("second", c_uint32), ("hundredths", c_uint64)]


class LotsOverlap(ctypes.Structure):
    """`township_lots_overlap`: 24 bytes."""

    _fields_ = [
        ("first", c_uint32), ("second", c_uint32), ("hundredths", c_uint64), ("lacking", c_uint32),
        ("reserved", c_uint32),
    ]


class Designation(ctypes.Structure):
    """`township_designation`: 4 bytes."""

    _fields_ = [("number", c_uint8), ("north_south", c_uint8), ("range", c_uint8), ("east_west", c_uint8)]


class Land(ctypes.Structure):
    """`township_land`: 4,620 bytes."""

    _fields_ = [
        ("rows", c_uint32 * PLACES_ACROSS * SECTIONS), ("date", c_uint32), ("own_lots", c_uint32),
        ("township", Designation),
    ]


class Lots(ctypes.Structure):
    """`township_lots`: 13,972 bytes."""

    _fields_ = [
        ("figures", c_uint32 * RETURNED_MOST), ("first", c_uint16 * BOUNDS), ("numbers", c_uint8 * RETURNED_MOST),
        ("positions", c_uint8 * POSITION_BYTES), ("divided", c_uint8 * DIVIDED_BYTES), ("mapped", c_uint16),
        ("date", c_uint32), ("township", Designation),
    ]


class Part(ctypes.Structure):
    """`township_part`: 6 bytes."""

    _fields_ = [
        ("section", c_uint8), ("lot", c_uint8), ("column", c_uint8), ("row", c_uint8), ("columns", c_uint8),
        ("rows", c_uint8),
    ]


class Change(ctypes.Structure):
    """`township_change`: 56 bytes."""

    _fields_ = [
        ("start", c_uint64), ("end", c_uint64), ("written", c_uint64), ("written_length", c_uint64),
        ("copied", c_uint64), ("copied_end", c_uint64), ("rule", c_uint32), ("assumes", c_uint32),
    ]


class Reading(ctypes.Structure):
    """`township_reading`: 40 bytes."""

    _fields_ = [
        ("text", c_uint64), ("text_length", c_uint64), ("changes", c_uint64), ("changes_length", c_uint64),
        ("manner", c_uint32), ("reserved", c_uint32),
    ]


class Suggestion(ctypes.Structure):
    """`township_suggestion`: 56 bytes."""

    _fields_ = [
        ("readings", c_uint64), ("changes", c_uint64), ("bytes", c_uint64), ("reason", c_uint64),
        ("reason_length", c_uint64), ("beyond", c_uint64), ("beyond_end", c_uint64),
    ]


class Stretch(ctypes.Structure):
    """`township_stretch`: 24 bytes."""

    _fields_ = [("start", c_uint64), ("end", c_uint64), ("ways", c_uint32), ("reserved", c_uint32)]


class Explanation(ctypes.Structure):
    """`township_explanation`: 112 bytes."""

    _fields_ = [
        ("shown", c_uint32), ("has_other", c_uint32), ("other_record", c_uint32), ("continued", c_uint32),
        ("start", c_uint64), ("end", c_uint64), ("other_start", c_uint64), ("other_end", c_uint64),
        ("sentence", c_uint64), ("sentence_length", c_uint64), ("excerpt", c_uint64), ("excerpt_length", c_uint64),
        ("hints", c_uint64), ("hints_length", c_uint64), ("repair", c_uint64), ("repair_length", c_uint64),
    ]


def _call(name: str, *types: Any) -> Callable[..., Answer]:
    """Return the library's function of this name, with the types of its arguments declared."""
    function: Any = getattr(LIBRARY, name)
    function.argtypes = types
    function.restype = Answer
    call: Callable[..., Answer] = function
    return call


read = _call("township_read", c_char_p, c_size_t, POINTER(Plat))
write_notes = _call("township_write_notes", POINTER(Plat), POINTER(c_char), c_size_t)
acres = _call("township_acres", POINTER(Plat), c_char_p, c_size_t, c_uint32)
area = _call("township_area", POINTER(Plat), c_char_p, c_size_t, c_uint32, POINTER(Fraction))
normal = _call("township_normal", POINTER(Plat), c_char_p, c_size_t, POINTER(c_char), c_size_t)
print_plat = _call("township_print", POINTER(Plat), POINTER(c_char), c_size_t)
report = _call("township_report", POINTER(Plat), c_char_p, c_size_t, POINTER(c_char), c_size_t)
account = _call("township_account", POINTER(Plat), c_char_p, c_size_t, POINTER(Tract), c_size_t, POINTER(Totals))
report_each = _call("township_report_each", POINTER(Plat), c_char_p, c_size_t, POINTER(TractAnswer), c_size_t)
overlaps = _call("township_overlaps", POINTER(Plat), c_char_p, c_size_t, POINTER(Overlap), c_size_t)
figures = _call("township_figures", POINTER(Plat), POINTER(PlatFigures))
acres_many = _call(
    "township_acres_many", POINTER(Plat), c_char_p, c_size_t, POINTER(c_size_t), c_size_t, c_uint32, POINTER(Answer),
    c_size_t,
)
answer_many = _call(
    "township_answer_many", POINTER(Plat), c_char_p, c_size_t, POINTER(c_size_t), c_size_t, c_uint32,
    POINTER(FullAnswer), c_size_t,
)
designation_read = _call("township_designation_read", c_char_p, c_size_t, POINTER(Designation))
designation_text = _call("township_designation_text", POINTER(Designation), POINTER(c_char), c_size_t)
land_read = _call("township_land_read", POINTER(Designation), c_char_p, c_size_t, POINTER(Land))
land_acres = _call("township_land_acres", POINTER(Plat), POINTER(Land), c_uint32)
land_area = _call("township_land_area", POINTER(Plat), POINTER(Land), c_uint32, POINTER(Fraction))
land_text = _call("township_land_text", POINTER(Land), POINTER(c_char), c_size_t)
land_parts = _call("township_land_parts", POINTER(Land), POINTER(Part), c_size_t)
land_combine = _call("township_land_combine", POINTER(Land), POINTER(Land), c_uint32, POINTER(Land))
land_compare = _call("township_land_compare", POINTER(Land), POINTER(Land), POINTER(c_uint32))
lots_read = _call("township_lots_read", c_char_p, c_size_t, POINTER(Lots))
lots_plain = _call("township_lots_plain", c_char_p, c_size_t, POINTER(c_char), c_size_t)
lots_land_read = _call("township_lots_land_read", POINTER(Lots), c_char_p, c_size_t, POINTER(Land))
lots_land_text = _call("township_lots_land_text", POINTER(Lots), POINTER(Land), POINTER(c_char), c_size_t)
lots_acres = _call("township_lots_acres", POINTER(Lots), c_char_p, c_size_t)
lots_area = _call("township_lots_area", POINTER(Lots), c_char_p, c_size_t, POINTER(Fraction))
lots_land_acres = _call("township_lots_land_acres", POINTER(Lots), POINTER(Land))
lots_land_area = _call("township_lots_land_area", POINTER(Lots), POINTER(Land), POINTER(Fraction))
lots_report = _call("township_lots_report", POINTER(Lots), c_char_p, c_size_t, POINTER(Tract), c_size_t)
lots_report_each = _call("township_lots_report_each", POINTER(Lots), c_char_p, c_size_t, POINTER(TractAnswer), c_size_t)
lots_overlaps = _call("township_lots_overlaps", POINTER(Lots), c_char_p, c_size_t, POINTER(LotsOverlap), c_size_t)
lots_acres_many = _call(
    "township_lots_acres_many", POINTER(Lots), c_char_p, c_size_t, POINTER(c_size_t), c_size_t, POINTER(Answer),
    c_size_t,
)
lots_answer_many = _call(
    "township_lots_answer_many", POINTER(Lots), c_char_p, c_size_t, POINTER(c_size_t), c_size_t, POINTER(FullAnswer),
    c_size_t,
)
explain_notes = _call("township_explain_notes", c_char_p, c_size_t, c_char_p, c_size_t, POINTER(c_char), c_size_t)
explain_description = _call(
    "township_explain_description", POINTER(Plat), c_char_p, c_size_t, c_char_p, c_size_t, POINTER(c_char), c_size_t,
)
explain_list = _call(
    "township_explain_list", POINTER(Plat), c_char_p, c_size_t, c_char_p, c_size_t, POINTER(c_char), c_size_t,
)
explain_lots = _call("township_explain_lots", c_char_p, c_size_t, c_char_p, c_size_t, POINTER(c_char), c_size_t)
explain_lacking = _call(
    "township_explain_lacking", POINTER(Lots), c_uint32, c_char_p, c_size_t, POINTER(c_char), c_size_t,
)
lots_explain_description = _call(
    "township_lots_explain_description", POINTER(Lots), c_char_p, c_size_t, c_char_p, c_size_t, POINTER(c_char),
    c_size_t,
)
lots_explain_list = _call(
    "township_lots_explain_list", POINTER(Lots), c_char_p, c_size_t, c_char_p, c_size_t, POINTER(c_char), c_size_t,
)
explain_notes_parts = _call(
    "township_explain_notes_parts", c_char_p, c_size_t, c_char_p, c_size_t, POINTER(c_char), c_size_t,
    POINTER(Explanation),
)
explain_description_parts = _call(
    "township_explain_description_parts", POINTER(Plat), c_char_p, c_size_t, c_char_p, c_size_t, POINTER(c_char),
    c_size_t, POINTER(Explanation),
)
explain_list_parts = _call(
    "township_explain_list_parts", POINTER(Plat), c_char_p, c_size_t, c_char_p, c_size_t, POINTER(c_char), c_size_t,
    POINTER(Explanation),
)
explain_lots_parts = _call(
    "township_explain_lots_parts", c_char_p, c_size_t, c_char_p, c_size_t, POINTER(c_char), c_size_t,
    POINTER(Explanation),
)
explain_lacking_parts = _call(
    "township_explain_lacking_parts", POINTER(Lots), c_uint32, c_char_p, c_size_t, POINTER(c_char), c_size_t,
    POINTER(Explanation),
)
lots_explain_description_parts = _call(
    "township_lots_explain_description_parts", POINTER(Lots), c_char_p, c_size_t, c_char_p, c_size_t, POINTER(c_char),
    c_size_t, POINTER(Explanation),
)
lots_explain_list_parts = _call(
    "township_lots_explain_list_parts", POINTER(Lots), c_char_p, c_size_t, c_char_p, c_size_t, POINTER(c_char),
    c_size_t, POINTER(Explanation),
)
suggest = _call(
    "township_suggest", c_char_p, c_size_t, POINTER(Reading), c_size_t, POINTER(Change), c_size_t, POINTER(c_char),
    c_size_t, POINTER(Suggestion),
)
lots_suggest = _call(
    "township_lots_suggest", POINTER(Lots), c_char_p, c_size_t, POINTER(Reading), c_size_t, POINTER(Change), c_size_t,
    POINTER(c_char), c_size_t, POINTER(Suggestion),
)
unread = _call("township_unread", c_char_p, c_size_t, POINTER(Stretch), c_size_t)
set_aside = _call(
    "township_set_aside", c_char_p, c_size_t, c_char_p, c_size_t, POINTER(c_size_t), c_size_t, POINTER(Stretch),
    c_size_t,
)
split = _call("township_split", c_char_p, c_size_t, POINTER(Stretch), c_size_t)
version = _call("township_version", POINTER(c_char), c_size_t)
