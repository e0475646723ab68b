"""Land as a value: how it is made, combined, compared, and measured."""
import copy
import pickle
import unittest
from decimal import Decimal
from fractions import Fraction

import township
from samples import RefusalCase, even, uneven
from township import Land

WHERE = "T. 2 N., R. 3 W."
OTHER = "T. 3 N., R. 3 W."


def land(description: str) -> Land:
    return Land.of(WHERE, description)


class Made(RefusalCase):
    def test_township(self):
        for named in (WHERE, "T2N R3W", (2, "N", 3, "W"), even().township):
            with self.subTest(named=named):
                self.assertEqual(Land.of(named, "sec. 14.").township, (2, "N", 3, "W"))
        for named in ("", "sec. 14.", (0, "N", 3, "W"), (2, "N", 3, "S")):
            with self.subTest(named=named), self.assertRaises(ValueError):
                Land.of(named, "sec. 14.")

    def test_text_or_bytes(self):
        for description in ("sec. 14, S½NE¼.", "sec. 14, S½NE¼.".encode(), b"sec. 14, S1/2NE1/4."):
            self.assertEqual(Land.of(WHERE, description), land("sec. 14, S1/2NE1/4."))
        with self.assertRaises(TypeError):
            Land.of(WHERE, 14)

    def test_by_a_plat(self):
        for plat in (even(), uneven()):
            self.assertEqual(plat.land("sec. 5, lot 1."), land("sec. 5, lot 1."))

    def test_refused_as_on_a_plat(self):
        for description in ("", "sec. 14, NE1/4 and N1/2.", "sec. 5, N1/2.", f"{OTHER}, sec. 14.", "sec. 37.", "sec. 14-"):
            with self.subTest(description=description):
                refused = self.refused(uneven().acres, description)
                self.assertEqual(self.refused(uneven().land, description), refused)
                self.assertEqual(self.refused(land, description), refused)

    def test_is_not_made_bare(self):
        with self.assertRaises(TypeError):
            Land()

    def test_rows(self):
        # The northeast quarter: the north half of the rows, and the east half of the columns.
        self.assertEqual(dict(land("sec. 14, NE1/4.").rows), {14: (0,) * 16 + (0xFFFF,) * 16})
        # Lot 2 of section 5 is the second from the east in the northern row of quarter-quarters.
        self.assertEqual(dict(land("sec. 5, lot 2.").rows), {5: (0,) * 24 + (0xFF00,) * 8})

    def test_of_rows(self):
        for description in ("sec. 14, NE1/4.", "sec. 5, lot 2; sec. 6, lots 1 to 7.", "secs. 1 to 36."):
            self.assertEqual(Land.of_rows(WHERE, land(description).rows), land(description))
        self.assertEqual(Land.of_rows(WHERE, {}), land("sec. 14.") - land("sec. 14."))

    def test_rows_that_are_no_land(self):
        row = 0xFFFFFFFF
        for rows in (
            {0: [row] * 32},
            {37: [row] * 32},
            {14: [row] * 31},
            {14: [row] * 33},
            {14: [row + 1] * 32},
            {14: [-1] * 32},
            # One place of lot 1 of section 5, and all of the lot but one place.
            {5: [0] * 31 + [1]},
            {5: [0] * 24 + [0xFF] * 7 + [0x7F]},
        ):
            with self.subTest(rows=rows), self.assertRaises(ValueError):
                Land.of_rows(WHERE, rows)


class Combined(unittest.TestCase):
    # The unit is a quarter section, and then a quarter-quarter section.

    def test_union(self):
        self.assertEqual(land("sec. 14, NE1/4.") | land("sec. 14, N1/2; sec. 15."), land("sec. 14, N1/2; sec. 15."))
        self.assertEqual(land("sec. 14, NE1/4.") | land("sec. 14, NW1/4."), land("sec. 14, N1/2."))

    def test_intersection(self):
        self.assertEqual(land("sec. 14, N1/2.") & land("sec. 14, E1/2; sec. 15."), land("sec. 14, NE1/4."))
        self.assertFalse(land("sec. 14, N1/2.") & land("sec. 14, S1/2."))

    def test_less_and_except(self):
        rest = land("sec. 14, all.") - land("sec. 14, NE1/4NE1/4.")
        self.assertEqual(rest, land("sec. 14, S1/2NE1/4, NW1/4NE1/4, NW1/4, S1/2."))
        self.assertEqual(land("sec. 14, NE1/4NE1/4.") - land("sec. 14, all."), land("sec. 14.") - land("sec. 14."))

    def test_symmetric_difference(self):
        self.assertEqual(land("sec. 14, N1/2.") ^ land("sec. 14, E1/2."), land("sec. 14, NW1/4, SE1/4."))

    def test_lots_stay_whole(self):
        rest = land("sec. 6.") - land("sec. 6, lots 2 to 7.")
        self.assertEqual(rest, land("sec. 6, lot 1, S1/2NE1/4, SE1/4NW1/4, E1/2SW1/4, SE1/4."))

    def test_compared_by_name(self):
        nothing = Land.empty(WHERE)
        for first, second, overlap, holds in (
            (land("sec. 14."), land("sec. 14, N1/2."), True, True),
            (land("sec. 14, N1/2."), land("sec. 14."), True, False),
            (land("sec. 14, N1/2."), land("sec. 14, E1/2."), True, False),
            (land("sec. 14, N1/2."), land("sec. 14, S1/2."), False, False),
            (land("sec. 14."), Land.of(OTHER, "sec. 14."), False, False),
            (land("sec. 14."), nothing, False, True),
            (nothing, nothing, False, True),
        ):
            with self.subTest(first=first, second=second):
                self.assertEqual((first.overlaps(second), first.contains(second)), (overlap, holds))
                self.assertEqual(second.overlaps(first), overlap)
                self.assertEqual(first.disjoint(second), not overlap)
        self.assertTrue(land("sec. 14, N1/2.").contains("sec. 14, NE1/4."))
        with self.assertRaises(township.Refused):
            land("sec. 14.").contains("sec. 37.")

    def test_empty(self):
        nothing = Land.empty(WHERE)
        self.assertEqual(nothing, land("sec. 14.") - land("sec. 14."))
        self.assertEqual((bool(nothing), nothing.text, list(nothing)), (False, "", []))
        self.assertEqual(nothing | land("sec. 14."), land("sec. 14."))
        self.assertNotEqual(nothing, Land.empty(OTHER))
        with self.assertRaises(ValueError):
            Land.empty("T. 0 N., R. 3 W.")

    def test_union_of_many(self):
        sections = [land(f"sec. {number}.") for number in range(1, 37)]
        self.assertEqual(Land.union(iter(sections)).text.count("\n"), 37)
        self.assertEqual(Land.union(sections + sections), Land.union(sections))
        self.assertEqual(Land.union(sections[:1]), sections[0])
        self.assertEqual(Land.union([Land.empty(WHERE), sections[13]]), sections[13])
        with self.assertRaisesRegex(ValueError, "Land.empty"):
            Land.union([])
        with self.assertRaisesRegex(ValueError, "township"):
            Land.union([sections[0], Land.of(OTHER, "sec. 14.")])
        with self.assertRaises(TypeError):
            Land.union(["sec. 14.", "sec. 15."])

    def test_in_different_townships(self):
        one, other = land("sec. 14."), Land.of(OTHER, "sec. 14.")
        for combine in (Land.__or__, Land.__and__, Land.__sub__, Land.__xor__):
            with self.assertRaisesRegex(ValueError, r"T\. 2 N\., R\. 3 W\. and T\. 3 N\., R\. 3 W\."):
                combine(one, other)

    def test_with_something_else(self):
        for other in ("sec. 14.", None, 14, {14}):
            with self.subTest(other=other):
                for combine in (lambda a, b: a | b, lambda a, b: a & b, lambda a, b: a - b, lambda a, b: a ^ b):
                    with self.assertRaises(TypeError):
                        combine(land("sec. 14."), other)
                    with self.assertRaises(TypeError):
                        combine(other, land("sec. 14."))


class Compared(RefusalCase):
    def test_comparisons(self):
        # The first, the second, and whether it is less or equal, and greater or equal.
        nothing = land("sec. 14.") - land("sec. 14.")
        for first, second, is_less, is_greater in (
            (land("sec. 14."), land("sec. 14, N1/2, S1/2."), True, True),
            (land("sec. 14."), land("sec. 14, N1/2."), False, True),
            (land("sec. 14, N1/2."), land("sec. 14; sec. 15."), True, False),
            (land("sec. 14, N1/2."), land("sec. 14, E1/2."), False, False),
            (land("sec. 14."), land("sec. 15."), False, False),
            (nothing, land("sec. 15."), True, False),
            (nothing, nothing, True, True),
        ):
            with self.subTest(first=first, second=second):
                self.assertEqual((first <= second, first >= second), (is_less, is_greater))
                self.assertEqual((first < second, first > second), (is_less > is_greater, is_greater > is_less))
                self.assertEqual(first == second, is_less and is_greater)
                self.assertEqual(first != second, not (is_less and is_greater))
                self.assertEqual((first in second, second in first), (is_less, is_greater))

    def test_disjoint(self):
        nothing = land("sec. 14.") - land("sec. 14.")
        self.assertTrue(land("sec. 14, N1/2.").isdisjoint(land("sec. 14, S1/2; sec. 15.")))
        self.assertFalse(land("sec. 14, N1/2.").isdisjoint(land("sec. 14, E1/2.")))
        self.assertFalse(land("sec. 14.").isdisjoint(land("sec. 14.")))
        for other in (nothing, land("sec. 14.")):
            self.assertTrue(nothing.isdisjoint(other))
            self.assertTrue(other.isdisjoint(nothing))

    def test_in_different_townships(self):
        # Neither contains the other, even if both are empty: then they would be equal.
        for description in ("sec. 14.", "sec. 14, N1/2."):
            one, other = land("sec. 14."), Land.of(OTHER, description)
            for first, second in ((one, other), (other, one), (one - one, other - other)):
                self.assertFalse(first <= second or first < second or first >= second or first > second)
                self.assertNotEqual(first, second)
                self.assertNotIn(first, second)
                self.assertTrue(first.isdisjoint(second))

    def test_text_within(self):
        self.assertIn("sec. 14, NE1/4.", land("sec. 14, N1/2."))
        self.assertNotIn(b"sec. 14, SE1/4.", land("sec. 14, N1/2."))
        self.refused(land("sec. 14.").__contains__, "sec. 37.")
        with self.assertRaises(TypeError):
            14 in land("sec. 14.")

    def test_with_something_else(self):
        self.assertNotEqual(land("sec. 14."), "sec. 14.")
        for compare in (lambda a, b: a <= b, lambda a, b: a < b, lambda a, b: a >= b, lambda a, b: a > b):
            with self.assertRaises(TypeError):
                compare(land("sec. 14."), "sec. 14.")


class Sections(unittest.TestCase):
    def test_by_section(self):
        several = land("sec. 14, N1/2; sec. 5, lot 1; sec. 36.")
        self.assertEqual(len(several), 3)
        self.assertEqual(list(several), [land("sec. 5, lot 1."), land("sec. 14, N1/2."), land("sec. 36.")])
        self.assertEqual(dict(several.sections), dict(zip((5, 14, 36), several)))
        self.assertTrue(all(each in several for each in several))

    def test_empty(self):
        nothing = land("sec. 14.") - land("sec. 14.")
        self.assertEqual((len(nothing), list(nothing), dict(nothing.sections)), (0, [], {}))
        self.assertEqual((nothing.text, nothing.parts, dict(nothing.rows)), ("", [], {}))
        self.assertFalse(nothing)
        self.assertTrue(land("sec. 14, NE1/4NE1/4NE1/4NE1/4NE1/4."))


class Texts(unittest.TestCase):
    def test_canonical(self):
        self.assertEqual(land("sec. 14, SE1/4, NE1/4, NW1/4.").text, f"{WHERE},\nsec. 14, N1/2, SE1/4.\n")

    def test_longer_than_its_first_room(self):
        # These are 16 squares of 2.5 acres in each of twenty sections, no two of which make up a larger part.
        quarters = ("NE1/4", "SW1/4")
        squares = [f"{a}{b}{c}{d}" for a in quarters for b in quarters for c in quarters for d in quarters]
        fine = land("; ".join(f"sec. {section}, {', '.join(squares)}" for section in (*range(8, 18), *range(20, 30))))
        self.assertGreater(len(fine.text), 4096)
        self.assertEqual(land(fine.text), fine)
        self.assertEqual(len(fine.parts), 320)


class Measured(RefusalCase):
    def test_acres(self):
        lots = land("sec. 7, lots 1 to 4.")
        for measure in (lots.acres, lambda *given, **named: given[0].acres(lots, *given[1:], **named)):
            self.assertEqual(measure(uneven()), Decimal("156.40"))
            self.assertEqual(measure(uneven(), "exact"), Decimal("156.40"))
            self.assertEqual(measure(uneven(), account="plat"), Decimal("156.42"))
        self.assertEqual(str((lots - lots).acres(uneven())), "0.00")

    def test_area(self):
        lot = land("sec. 5, lot 1.")
        self.assertEqual((lot.area(uneven()), uneven().area(lot)), (Fraction(809, 20),) * 2)
        self.assertEqual(land("sec. 7, lots 1 to 4.").area(uneven(), account="plat"), Fraction(15642, 100))
        self.assertEqual((lot - lot).area(uneven()), 0)

    def test_no_account(self):
        for account in ("", "printed", None):
            for measure in (land("sec. 14.").acres, land("sec. 14.").area):
                with self.subTest(account=account), self.assertRaises(ValueError):
                    measure(uneven(), account)

    def test_in_another_township(self):
        other = Land.of(OTHER, "sec. 14.")
        for measure in (uneven().acres, uneven().area):
            with self.assertRaisesRegex(ValueError, r"T\. 3 N\., R\. 3 W\. and T\. 2 N\., R\. 3 W\."):
                measure(other)


class Values(unittest.TestCase):
    def test_equal(self):
        again = land("sec. 14, NE1/4, NW1/4.")
        self.assertEqual(again, land("sec. 14, N1/2."))
        self.assertEqual(hash(again), hash(land("sec. 14, N1/2.")))
        self.assertEqual(len({again, land("sec. 14, N1/2."), land("sec. 14."), Land.of(OTHER, "sec. 14.")}), 3)

    def test_pickled(self):
        several = land("sec. 14, N1/2; sec. 5, lot 1.")
        for protocol in range(pickle.HIGHEST_PROTOCOL + 1):
            for one in (several, several - several):
                again = pickle.loads(pickle.dumps(one, protocol))
                self.assertEqual((again, again.township), (one, one.township))

    def test_pickle_holds_plain_data(self):
        made, (where, rows) = land("sec. 14.").__reduce__()
        self.assertIs(type(where), tuple)
        self.assertEqual(rows, {14: (0xFFFFFFFF,) * 32})
        self.assertEqual(made(where, rows), land("sec. 14."))

    def test_copied(self):
        self.assertEqual(copy.copy(land("sec. 14.")), land("sec. 14."))
        self.assertEqual(copy.deepcopy(land("sec. 14.")), land("sec. 14."))

    def test_cannot_be_changed(self):
        fixed = land("sec. 14.")
        for name in ("text", "parts", "rows", "sections", "township", "other"):
            with self.subTest(name=name), self.assertRaises(AttributeError):
                setattr(fixed, name, None)
        with self.assertRaises(TypeError):
            fixed.rows[14] = ()
        before = fixed
        fixed |= land("sec. 15.")
        self.assertEqual((before, fixed), (land("sec. 14."), land("sec. 14; sec. 15.")))

    def test_shown(self):
        self.assertEqual(repr(land("sec. 14, N1/2.")), "<township.Land: T. 2 N., R. 3 W., sec. 14, N1/2.>")
        self.assertEqual(repr(land("sec. 14.") - land("sec. 14.")), "<township.Land: none in T. 2 N., R. 3 W.>")
        self.assertEqual(
            repr(Land.union(land(f"sec. {number}.") for number in range(1, 37))),
            "<township.Land: T. 2 N., R. 3 W., sec. 1, all; sec. 2, all; sec. 3, all; sec. 4, all; sec. 5, all; "
            "sec. 6, all; ..>",
        )


if __name__ == "__main__":
    unittest.main()
