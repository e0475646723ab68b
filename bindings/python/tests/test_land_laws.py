"""Laws of land, over random lands."""
import pickle
import unittest

import township
from samples import uneven
from township import Land

try:
    from hypothesis import given, settings
    from hypothesis import strategies as make
except ImportError as missing:
    raise unittest.SkipTest("hypothesis isn't installed") from missing

WHERE = (2, "N", 3, "W")

HALVES = ("N1/2", "S1/2", "E1/2", "W1/2")
QUARTERS = ("NE1/4", "NW1/4", "SE1/4", "SW1/4")
LOTS = {**dict.fromkeys((1, 5, 7, 18, 31), 4), 6: 7}
#: The aliquot parts of section 6 that contain no lot.
OFF_LOTS = ("S1/2NE1/4", "SE1/4NW1/4", "E1/2SW1/4", "SE1/4")

NOTHING = Land.of_rows(WHERE, {})


def land_of(part: str) -> Land:
    return Land.of(WHERE, part)


#: A part of a section: up to four quarters deep, and perhaps half of that; or all of it.
aliquot_parts = make.builds(
    lambda half, quarters: half + "".join(quarters) or "all",
    make.sampled_from(("", *HALVES)),
    make.lists(make.sampled_from(QUARTERS), max_size=4),
)
#: Few sections, so that lands share some.
parts = make.one_of(
    make.builds("sec. {}, {}.".format, make.sampled_from((14, 15)), aliquot_parts),
    make.sampled_from(sorted(LOTS)).flatmap(
        lambda section: make.builds("sec. {}, lot {}.".format, make.just(section), make.integers(1, LOTS[section]))
    ),
    make.builds("sec. 6, {}.".format, make.sampled_from(OFF_LOTS)),
)


def union_of(lands):
    whole = NOTHING
    for land in lands:
        whole |= land
    return whole


lands = make.lists(parts, max_size=8).map(lambda several: union_of(map(land_of, several)))

#: Each law is tried on so many lands; the same ones in each run.
tried = settings(max_examples=60, deadline=None, derandomize=True, database=None)


class Sets(unittest.TestCase):
    @tried
    @given(lands, lands)
    def test_are_the_sets_of_their_places(self, a, b):
        for combined, places in (
            (a | b, places_of(a) | places_of(b)),
            (a & b, places_of(a) & places_of(b)),
            (a - b, places_of(a) - places_of(b)),
            (a ^ b, places_of(a) ^ places_of(b)),
        ):
            self.assertEqual(places_of(combined), places)
        self.assertEqual((a <= b, a < b), (places_of(a) <= places_of(b), places_of(a) < places_of(b)))
        self.assertEqual((a >= b, a > b), (places_of(a) >= places_of(b), places_of(a) > places_of(b)))
        self.assertEqual((a == b, a.isdisjoint(b)), (places_of(a) == places_of(b), places_of(a).isdisjoint(places_of(b))))

    @tried
    @given(lands, lands, lands)
    def test_laws(self, a, b, c):
        self.assertEqual((a | b, a & b, a ^ b), (b | a, b & a, b ^ a))
        self.assertEqual(((a | b) | c, (a & b) & c), (a | (b | c), a & (b & c)))
        self.assertEqual((a & (b | c), a | (b & c)), ((a & b) | (a & c), (a | b) & (a | c)))
        self.assertEqual(a - (b | c), (a - b) & (a - c))
        self.assertEqual((a - b) | (a & b), a)
        self.assertEqual((a | NOTHING, a & NOTHING, a - a), (a, NOTHING, NOTHING))
        self.assertTrue(a & b <= a <= a | b)

    @tried
    @given(lands)
    def test_sections_make_up_the_land(self, a):
        self.assertEqual(union_of(a), a)
        self.assertEqual(len(a), len(list(a)))
        self.assertEqual(bool(a), a != NOTHING)


class Areas(unittest.TestCase):
    @tried
    @given(lands, lands, make.sampled_from(("exact", "plat")))
    def test_add_up(self, a, b, account):
        def area(land):
            return uneven().area(land, account)

        self.assertEqual(area(a | b) + area(a & b), area(a) + area(b))
        self.assertEqual(area(a - b) + area(a & b), area(a))
        self.assertEqual(area(a ^ b) + 2 * area(a & b), area(a) + area(b))
        self.assertEqual(township.rounded(area(a)), uneven().acres(a, account))

    @tried
    @given(lands.filter(bool), make.sampled_from(("exact", "plat")))
    def test_are_those_of_the_text(self, a, account):
        self.assertEqual(uneven().area(a, account), uneven().area(a.text, account))
        self.assertEqual(uneven().acres(a, account), uneven().acres(a.text, account))


class Texts(unittest.TestCase):
    @tried
    @given(lands.filter(bool))
    def test_read_again_are_the_land(self, a):
        self.assertEqual(land_of(a.text), a)
        self.assertEqual(uneven().normal(a.text), a.text)
        self.assertEqual(pickle.loads(pickle.dumps(a)), a)

    @tried
    @given(lands)
    def test_parts_are_the_land(self, a):
        places = [place for part in a.parts for place in places_in(part)]
        self.assertEqual(len(places), len(set(places)))
        self.assertEqual(set(places), places_of(a))


def places_of(land: Land):
    """The places of land: a section, a column, and a row each."""
    return {
        (section, column, row)
        for section, rows in land.rows.items()
        for row, bits in enumerate(rows)
        for column in range(32)
        if bits >> column & 1
    }


def places_in(part):
    """The places of a written part."""
    return [
        (part.section, column, row)
        for column in range(part.column, part.column + part.columns)
        for row in range(part.row, part.row + part.rows)
    ]


if __name__ == "__main__":
    unittest.main()
