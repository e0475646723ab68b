"""The slow model of lot tables gives the answers that are worked out by hand here: `python3 -m pytest tests/lots`."""

import datetime
import sys
import types
from fractions import Fraction
from pathlib import Path

import pytest

sys.dont_write_bytecode = True
sys.path.insert(0, str(Path(__file__).resolve().parent))
from descriptions import Refused, items_of  # noqa: E402
from meaning import area_of, land_of, rounded, text_of  # noqa: E402
from model import Comparison  # noqa: E402
from places import part, size, spelled, written_parts  # noqa: E402
from tables import Fault, Faulty, table_of  # noqa: E402

#: Section 14 has a lake in its northwest corner, two lots in one quarter-quarter, and lot 4 in two. Section 20 is not
#: there at all.
TABLE = """\
section,lot,acres,land
T,2,N,3,W,1912-03-04
5,1,40.45,NE1/4NE1/4
14,1,38.50,NE1/4NE1/4
14,2,12.25,N1/2NW1/4NE1/4
14,3,19.80,S1/2NW1/4NE1/4
14,4,71.10,"E1/2NW1/4"
14,9,5.01,"NE1/4SE1/4SE1/4, S1/2SE1/4SE1/4"
14,,,NW1/4NW1/4
14,,,NW1/4SE1/4SE1/4
20,,,"N1/2, S1/2"
"""


def answer(description, table=TABLE):
    """The acres of a description in hundredths, or its refusal."""
    read = table_of(table.encode())
    try:
        return rounded(area_of(read, land_of(read, items_of(description.encode()))))
    except Refused as refused:
        return refused.number, refused.at


def text(description):
    table = table_of(TABLE.encode())
    return text_of(table, land_of(table, items_of(description.encode())))


def fault(table):
    with pytest.raises(Faulty) as caught:
        table_of(table.encode())
    return caught.value.fault, caught.value.at


def test_table():
    table = table_of(TABLE.encode())
    assert (table.township, table.date) == ((2, "N", 3, "W"), datetime.date(1912, 3, 4))
    section = table.section(14)
    acres = {number: lot.hundredths for number, lot in section.lots.items()}
    assert acres == {1: 3850, 2: 1225, 3: 1980, 4: 7110, 9: 501}
    # 32 by 32 places: a quarter-quarter has 64.
    assert [size(section.lots[number].places) for number in (1, 2, 3, 4, 9)] == [64, 32, 32, 128, 48]
    assert size(section.missing) == 64 + 16
    assert table.section(20).there == 0


@pytest.mark.parametrize("description, expected", [
    # 38.50 + 12.25 + 19.80
    ("sec. 14, lots 1 to 3.", 7055),
    ("sec. 14, lot 4.", 7110),
    ("sec. 14, lot 9.", 501),
    # The lots have 146.66 acres and 304 places, and 80 are not there: 640 others at 5/8 of an acre.
    ("sec. 14.", 14666 + 40000),
    ("sec. 14, all.", 14666 + 40000),
    ("secs. 13 to 15.", 14666 + 40000 + 128000),
    ("sec. 14, SW1/4NW1/4, SW1/4.", 20000),
    # 5/8 of an acre is rounded half up.
    ("sec. 14, SW1/4SW1/4SW1/4SW1/4SW1/4.", 63),
    ("sec. 5, lot 1, NW1/4NE1/4.", 8045),
    ("sec. 20, lot 1.", (64, 13)),
    ("sec. 20, SE1/4.", (68, 9)),
    ("sec. 20.", (68, 5)),
    ("sec. 20, all.", (68, 9)),
    ("secs. 19 to 21.", (68, 12)),
    ("secs. 20 to 21.", (68, 6)),
    ("sec. 14, NW1/4NW1/4.", (68, 9)),
    # Also lots are in these parts, and that has the lower number.
    ("sec. 14, NW1/4.", (66, 9)),
    ("sec. 14, SE1/4SE1/4.", (66, 9)),
    ("sec. 14, NW1/4SE1/4SE1/4.", (68, 9)),
    ("sec. 14, lots 1 to 5.", (64, 19)),
    ("sec. 14, lots 5 to 9.", (64, 14)),
    ("sec. 14, lots 4 to 1.", (63, 19)),
    ("sec. 14, lots 7 to 6.", (63, 19)),
    ("sec. 14, lots 1, 2, and 1.", (67, 24)),
    ("sec. 14, SW1/4, S1/2SW1/4.", (67, 16)),
    ("sec. 14, SW1/4, all.", (67, 16)),
    ("sec. 14, N1/2N1/2N1/2N1/2N1/2N1/2.", (65, 9)),
    ("sec. 0.", (62, 5)),
    ("secs. 40 to 37.", (62, 6)),
    ("secs. 4 to 2.", (63, 11)),
    ("T. 2 N., R. 3 E., sec. 5.", (61, 0)),
    ("sec. 5, lot 1; sec. 5, lot 1.", (67, 27)),
])
def test_description(description, expected):
    assert answer(description) == expected


@pytest.mark.parametrize("description, at", [
    ("", 0), ("sec. 14,", 8), ("sec. 14, NE1/4. sec. 15", 16), ("sec. 14, and NE1/4", 13), ("secs. 1, 2, NE1/4", 12),
    ("sec. 14, lot 1, inclusive", 16), ("sec. 14, NE1/4 of the", 21), ("T. 2 N., sec. 14.", 9), ("sec. 14 and", 11),
])
def test_syntax(description, at):
    assert answer(description) == (44, at)


def test_canonical_text():
    assert text("sec. 14, S1/2SW1/4, lots 2, 1, N1/2SW1/4; sec. 1, all") == (
        "T. 2 N., R. 3 W.,\nsec. 1, all;\nsec. 14, lots 1, 2, SW1/4.\n")
    assert text("sec. 14.") == "T. 2 N., R. 3 W.,\nsec. 14, all.\n"
    # Without the lots and the lake, the east half of the west half is not full.
    assert text("sec. 14, lot 4, SW1/4NW1/4, SW1/4").endswith("\nsec. 14, lot 4, SW1/4NW1/4, SW1/4.\n")
    # Halves come before quarters, and the first of north, south, east, and west.
    parts = part(("sw",)) | part(("e",))
    assert [spelled(steps) for steps in written_parts(parts)] == ["NE1/4", "S1/2"]
    parts = part(("e",)) | part(("ne", "nw"))
    assert [spelled(steps) for steps in written_parts(parts)] == ["E1/2", "NE1/4NW1/4"]


def test_table_of_standard_lots():
    table = "section,lot,acres\nT,2,N,3,W\n5,1,40.45\n5,2,40.55\n"
    assert answer("sec. 5, lots 1 and 2, S1/2NE1/4.", table) == 16100
    assert answer("sec. 5, lots 1 to 4.", table) == (94, 503)
    assert answer("sec. 5, lot 5.", table) == (64, 12)
    assert area_of(table_of(table.encode()), land_of(table_of(table.encode()), items_of(b"sec. 36."))) == Fraction(640)


HEAD = "section,lot,acres,land\nT,2,N,3,W\n"


@pytest.mark.parametrize("table, expected", [
    ("", (Fault.EMPTY, 1)),
    ("\n" * 65_537, (Fault.TOO_LARGE, 65_536)),
    ("section,lot,acres,parts\n", (Fault.HEADING, 1)),
    ("section,lot,acres,land\n", (Fault.TOWNSHIP, 2)),
    ("section,lot,acres,land\nT,2,N,3\n", (Fault.COLUMNS, 2)),
    ("section,lot,acres,land\nT,2,N,0,W\n", (Fault.TOWNSHIP, 2)),
    ("section,lot,acres,land\nT,2,N,3,W,1900-02-29\n", (Fault.DATE, 2)),
    ("section,lot,acres,land\nT,2,N,3,W,\n", (Fault.DATE, 2)),
    (HEAD + "14,1,40.00\n", (Fault.COLUMNS, 3)),
    (HEAD + "37,1,40.00,NE1/4NE1/4\n", (Fault.NO_LOT, 3)),
    (HEAD + "14,0,40.00,NE1/4NE1/4\n", (Fault.NO_LOT, 3)),
    (HEAD + "14,,40.00,NE1/4NE1/4\n", (Fault.NO_LOT, 3)),
    (HEAD + "14,1,,NE1/4NE1/4\n", (Fault.ACRES, 3)),
    (HEAD + "14,1,40.0,NE1/4NE1/4\n", (Fault.ACRES, 3)),
    (HEAD + "14,1,40.00,NE1/4NE1/4\n14,1,40.00,NW1/4NE1/4\n", (Fault.REPEATED, 4)),
    (HEAD + "14,1,40.00,\n", (Fault.LAND, 3)),
    (HEAD + "14,1,40.00,all\n", (Fault.LAND, 3)),
    (HEAD + "14,1,40.00,NE1/4NE1/4.\n", (Fault.LAND, 3)),
    (HEAD + "14,,,\n", (Fault.LAND, 3)),
    (HEAD + "14,1,40.00,NE1/4NE1/4NE1/4NE1/4NE1/4NE1/4\n", (Fault.TOO_FINE, 3)),
    (HEAD + '14,1,40.00,"NE1/4, N1/2"\n', (Fault.SHARED, 3)),
    (HEAD + "14,1,40.00,NE1/4NE1/4\n14,2,40.00,NE1/4\n", (Fault.SHARED, 4)),
    (HEAD + "14,1,40.00,NE1/4NE1/4\n14,,,NE1/4\n", (Fault.SHARED, 4)),
    (HEAD + "14,,,NE1/4\n14,,,NE1/4\n", (Fault.SHARED, 4)),
    (HEAD + "14,1,40.00,SW1/4\n14,2,40.00,N1/2NE1/4NE1/4\n", (Fault.UNFILLED, 4)),
    (HEAD + "14,,,N1/2NE1/4NE1/4\n14,2,40.00,NE1/4SE1/4NE1/4\n", (Fault.UNFILLED, 4)),
])
def test_fault(table, expected):
    assert fault(table) == expected


def test_filled_by_land_that_is_not_there():
    table = HEAD + "14,,,N1/2NE1/4NE1/4\n14,2,9.99,S1/2NE1/4NE1/4\n"
    assert answer("sec. 14.", table) == 999 + 60000


def test_too_many_lots():
    quarters = [f"{a}1/4{b}1/4{c}1/4" for a in ("NE", "NW", "SW", "SE") for b in ("NE", "NW", "SW", "SE")
                for c in ("NE", "NW", "SW", "SE")]
    lots = [f"14,{number},10.00,{quarter}\n" for number, quarter in enumerate(quarters, 1)]
    assert answer("sec. 14.", HEAD + "".join(lots)) == 64000
    halves = [f"14,{number},5.00,{half}1/2{quarters[0]}\n" for number, half in ((98, "N"), (99, "S"))]
    assert fault(HEAD + "".join([*lots[1:], *halves])) == (Fault.TOO_MANY, 67)
    # 16 sections with 64 lots each have 1,024; also too many quarter-quarters are divided, but that comes later.
    all_lots = [f"{section},{number},10.00,{quarter}\n" for section in range(1, 18)
                for number, quarter in enumerate(quarters, 1)]
    assert fault(HEAD + "".join(all_lots[:1024])) == (Fault.DIVIDED, 1026)
    assert fault(HEAD + "".join(all_lots[:1025])) == (Fault.TOO_MANY, 1027)


def test_too_many_divided():
    quarters = ("NE", "NW", "SW", "SE")
    halves = [f"{half}1/2{a}1/4{b}1/4" for b in quarters for a in quarters for half in "NS"]
    # 8 sections with 16 quarter-quarters each have 128; one that is in one lot is not divided.
    lots = [f"{section},{number},20.00,{half}\n" for section in range(1, 9) for number, half in enumerate(halves, 1)]
    whole = "9,1,40.00,NE1/4NE1/4\n"
    assert answer("sec. 9.", HEAD + "".join([*lots, whole])) == 64000
    assert fault(HEAD + "".join([*lots, "9,1,20.00,N1/2NE1/4NE1/4\n", "9,,,S1/2NE1/4NE1/4\n"])) == (Fault.DIVIDED, 260)


def test_random_cases():
    """Each kind of answer is given, and canonical texts are read back as the same land."""
    comparison = Comparison()
    for index in range(1_250):
        comparison.table(1, index)
    assert comparison.failed == 0
    assert comparison.passed > 8_000
    assert comparison.lacking() == []
    assert comparison.kinds["accepted description"] > 3_000
    assert comparison.kinds["accepted table"] > 700


class Edited:
    """A library that answers as the model does, but with one line of the model changed."""

    MODULES = ("places", "descriptions", "tables", "meaning")

    def __init__(self, edited="", old="", new=""):
        kept = {name: sys.modules[name] for name in self.MODULES}
        copies = {}
        for name in self.MODULES:
            source = Path(__file__).with_name(f"{name}.py").read_text(encoding="utf-8")
            if name == edited:
                assert source.count(old) == 1, old
                source = source.replace(old, new)
            copies[name] = sys.modules[name] = types.ModuleType(name)
            exec(compile(source, name, "exec"), copies[name].__dict__)
        sys.modules.update(kept)
        self.model = types.SimpleNamespace(**{k: v for each in copies.values() for k, v in vars(each).items()})

    def read(self, table):
        try:
            self.table = self.model.table_of(table)
        except self.model.Faulty as faulty:
            return self.model.NUMBERS[faulty.fault], faulty.at

    def land(self, description):
        return self.model.land_of(self.table, self.model.items_of(description))

    def acres(self, description):
        try:
            return None, self.model.rounded(self.model.area_of(self.table, self.land(description)))
        except self.model.Refused as refused:
            return (refused.number, refused.at), 0

    def area(self, description):
        area = self.model.area_of(self.table, self.land(description))
        return area.numerator, area.denominator

    def land_acres(self, description):
        return self.acres(description)

    def text(self, description):
        return self.model.text_of(self.table, self.land(description))


def test_the_model_agrees_with_itself():
    comparison = Comparison(Edited())
    for index in range(100):
        comparison.table(2, index)
    assert comparison.passed > 500
    assert comparison.failed == 0


@pytest.mark.parametrize("edited, old, new", [
    # A lot's second part is dropped; two lots that share a quarter-quarter are one; the acreage of a neighbor.
    ("tables", "        places |= more or 0\n", "        places = places or more\n"),
    ("meaning", "        places |= lots[number].places\n", "        places |= part((\"ne\", \"ne\"))\n"),
    ("meaning", "hundredths += lot.hundredths", "hundredths += here.lots[min(here.lots)].hundredths or 0"),
    # Land that is not there: counted, named, or not known.
    ("tables", "return WHOLE & ~self.missing", "return WHOLE"),
    ("meaning", "(NOT_THERE, here.missing), ", ""),
    ("tables", "        here.missing |= places\n", "        pass\n"),
    ("meaning", "if not all(there for _, there in named)", "if False"),
    # Lots where the standard lots are; a section without its lots; parts that include lots.
    ("meaning", "def land_of(table, items):\n",
     "def land_of(table, items):\n    table = table._replace(sections={})\n"),
    ("meaning", "    named = [(number, table.section(number).there)",
     "    named = [(number, table.section(number).there & ~table.section(number).in_lots)"),
    ("meaning", "(66, here.in_lots), ", ""),
    # Gaps in the numbers of lots; rounding; the canonical text.
    ("meaning", "return (64, item.last_at), []", "return (64, item.at), []"),
    ("meaning", "(200 * area.numerator + area.denominator)", "(200 * area.numerator)"),
    ("meaning", "if places == here.there", "if places == (1 << 1024) - 1"),
    ("places", "if half is None or half not in quarter", "if half in (None, \"w\") or half not in quarter"),
    # Tables: two lots on a place, a quarter-quarter that is filled in part, and the order of faults.
    ("tables", "(here.in_lots | here.missing)", "here.in_lots"),
    ("tables", "if places & aliquot and places & section.in_lots", "if False"),
    ("tables", "min(faults, key", "max(faults, key"),
    ("tables", "len(here.lots) >= LOTS_MOST", "len(here.lots) > LOTS_MOST"),
    ("tables", "if count > DIVIDED_MOST", "if count > DIVIDED_MOST + 1"),
])
def test_another_meaning_fails(edited, old, new):
    comparison = Comparison(Edited(edited, old, new))
    index = 0
    while not comparison.failed and index < 1_500:
        comparison.table(2, index)
        index += 1
    assert comparison.failed > 0
