"""Values that are checked when they are made, and how values are shown."""
import copy
import pickle
import unittest

import township
from samples import TOP, even, uneven
from township import Plat, Township, suggest


class Townships(unittest.TestCase):
    def test_parts(self):
        made = Township(2, "N", 3, "W")
        self.assertEqual((made.number, made.north_south, made.range, made.east_west), (2, "N", 3, "W"))
        self.assertEqual((made, str(made)), ((2, "N", 3, "W"), "T. 2 N., R. 3 W."))
        self.assertEqual(repr(made), "Township(number=2, north_south='N', range=3, east_west='W')")
        self.assertEqual(Township(number=99, north_south="S", range=1, east_west="E"), (99, "S", 1, "E"))

    def test_parts_that_are_none(self):
        for parts in ((0, "N", 3, "W"), (100, "N", 3, "W"), (2, "N", 0, "W"), (2, "N", 100, "W"), (-2, "N", 3, "W"),
                      (2, "n", 3, "W"), (2, "E", 3, "W"), (2, "N", 3, "N"), (2, "N", 3, ""), (2, None, 3, "W")):
            with self.subTest(parts=parts), self.assertRaises(ValueError):
                Township(*parts)
        for parts in ((2.0, "N", 3, "W"), ("2", "N", 3, "W"), (2, "N", None, "W"), (2, "N", 3)):
            with self.subTest(parts=parts), self.assertRaises(TypeError):
                Township(*parts)

    def test_copies_are_checked(self):
        made = Township(2, "N", 3, "W")
        self.assertEqual(made._replace(number=3), Township(3, "N", 3, "W"))
        for change in (lambda: made._replace(range=100), lambda: Township._make((2, "N", 3, "w"))):
            with self.assertRaises(ValueError):
                change()
        for protocol in range(pickle.HIGHEST_PROTOCOL + 1):
            again = pickle.loads(pickle.dumps(made, protocol))
            self.assertEqual((again, type(again)), (made, Township))
        self.assertEqual(copy.deepcopy(made), made)

    def test_plats_of_spellings(self):
        quarters = even().closing_quarters
        for where in ("T. 2 N., R. 3 W.", "T2N R3W", "2N-3W", "0020N 0030W", (2, "N", 3, "W"), even().township):
            self.assertEqual(Plat.of_parts(where, quarters), even())
        for where in ("sec. 14.", "", "T. 2 N., R. 3 W., sec. 14;", "T99S R99E, sec. 14;", (100, "N", 3, "W")):
            with self.assertRaises(ValueError):
                Plat.of_parts(where, quarters)


class Shown(unittest.TestCase):
    def test_answers(self):
        answers = uneven().acres_many(["sec. 14.", "sec. 37.", "sec. 15."])
        self.assertEqual(repr(answers), "<township.Answers to 3 descriptions: 1 refused>")

    def test_refusals(self):
        with self.assertRaises(township.Refused) as caught:
            uneven().acres("sec. 14, NE1/4 and N1/2.")
        self.assertEqual(repr(caught.exception),
                         "<township.Refused: 67 at 19, description:1:20: this land was named before>")
        self.assertEqual(repr(township.Refused(67, 19)), "<township.Refused: 67 at 19, refused 67 at 19>")

    def test_length(self):
        with self.assertRaises(township.Refused) as caught:
            Plat.open(f"{TOP}/{'samples/../' * 60}samples/tracts.csv")
        self.assertGreater(len(str(caught.exception)), 600)
        self.assertLess(len(repr(caught.exception)), 250)
        readings = suggest("; ".join(f"sec. {number}, NE/4" for number in range(8, 30)))
        self.assertGreater(len(readings[0].text), 150)
        self.assertLess(len(repr(readings)), 30 + 110 * len(readings))


if __name__ == "__main__":
    unittest.main()
