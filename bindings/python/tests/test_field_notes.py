"""Field notes that are written in Python."""
import copy
import pickle
import unittest
from decimal import Decimal
from fractions import Fraction

import township
from samples import EVEN_NOTES, NOTES, RefusalCase, even, uneven

#: The section lines in which the samples differ.
UNEVEN = {
    "N,4,5": (40, "80.20"),
    "N,5,6": (40, "80.40"),
    "N,6,": (40, "80.80"),
    "W,6,": (40, "79.20"),
    "W,6,7": (40, "79.60"),
    "W,7,18": (40, "79.50"),
}


def sample() -> township.Notes:
    return township.Notes("T. 2 N., R. 3 W.")


class Beginning(unittest.TestCase):
    def test_nominal_township(self):
        self.assertEqual(sample().csv(), EVEN_NOTES.decode())
        self.assertEqual(sample().plat(), even())

    def test_township(self):
        for named in ("T. 2 N., R. 3 W.", "T2N R3W", "Township 2 North, Range 3 West", (2, "N", 3, "W"), even().township):
            with self.subTest(named=named):
                self.assertEqual(township.Notes(named).township, (2, "N", 3, "W"))

    def test_no_township(self):
        for named in ("", "sec. 14.", "Township 2 North", "T. 100 N., R. 3 W.", (0, "N", 3, "W"), (2, "n", 3, "W"), (2, "N", 3)):
            with self.subTest(named=named), self.assertRaises(ValueError):
                township.Notes(named)

    def test_lines_in_the_order_of_their_indexes(self):
        names = [",".join(line.split(",")[:3]) for line in EVEN_NOTES.decode().splitlines()[2:]]
        self.assertEqual(list(sample()), names)
        self.assertEqual(len(sample()), 84)


class Lines(RefusalCase):
    def test_uneven_sample(self):
        notes = sample()
        for line, distances in UNEVEN.items():
            notes[line] = distances
        self.assertEqual(notes.csv(), NOTES.decode())
        self.assertEqual(notes.plat(), uneven())

    def test_either_order_of_sections(self):
        notes = sample()
        notes["N,5,4"] = 40, 80.2
        notes["W,,6"] = 40, Decimal("79.2")
        self.assertEqual(notes["N,4,5"], (Decimal("40.00"), Decimal("80.20")))
        self.assertEqual(notes["W,6,"], notes["W,,6"])
        self.assertIn("N,5,4", notes)

    def test_keys_of_parts(self):
        notes = township.Notes("T. 2 N., R. 3 W.")
        notes["N", 4, 5] = (40, "80.20")
        notes["W", 6, None] = (40, "79.40")
        self.assertEqual(notes["N,4,5"], (Decimal("40.00"), Decimal("80.20")))
        self.assertEqual(notes["N", 5, 4], notes["N,4,5"])
        self.assertEqual(notes["W,6,"], (Decimal("40.00"), Decimal("79.40")))
        for line in (("N", 4), ("N", 4, 6), ("N", None, None), (4, 5), ("N", 4, 5, None), ()):
            with self.assertRaises(KeyError):
                notes[line]

    def test_no_such_line(self):
        # Sections 4 and 6 are not next to each other, 4 and 5 are side by side, and 14 is inside the township.
        for line in ("", "N", "N,4", "N,4,6", "W,4,5", "N,14,", "N,,", "n,4,5", "N, 4,5", "N,4,5,", "E,4,5", 52, None):
            with self.subTest(line=line):
                self.assertNotIn(line, sample())
                with self.assertRaises(KeyError):
                    sample()[line]
                with self.assertRaises(KeyError):
                    sample()[line] = 40, 80

    def test_distances(self):
        notes = sample()
        for given, wanted in ((40, "40.00"), ("40", "40.00"), ("40.5", "40.50"), ("40.125", "40.125"), (40.25, "40.25"),
                              (39.75, "39.75"), (Decimal("40.1250000"), "40.125"), ("0", "0.00"), ("99.999", "99.999")):
            with self.subTest(given=given):
                notes["W,6,"] = given, 80
                self.assertEqual([str(each) for each in notes["W,6,"]], [wanted, "80.00"])

    def test_no_distances(self):
        for given in ("", "40.", ".5", "40,5", "+40", " 40", "4e1", "nan", "٤٠", "40.1234", "100", 100, -1, -0.5, 40.0001,
                      0.1 + 0.2, float("nan"), float("inf"), Decimal("NaN"), Decimal("99.9991")):
            with self.subTest(given=given):
                notes = sample()
                for distances in ((given, 80), (40, given)):
                    with self.assertRaises(ValueError):
                        notes["W,6,"] = distances
                self.assertEqual(notes, sample())

    def test_not_two_distances(self):
        for given in ((), (40,), (40, 80, 80), "40", "44", [40]):
            with self.subTest(given=given), self.assertRaises(ValueError):
                sample()["W,6,"] = given
        for given in (40, (None, 80), (40, Fraction(80)), (b"40", 80)):
            with self.subTest(given=given), self.assertRaises(TypeError):
                sample()["W,6,"] = given

    def test_lines_cannot_be_deleted(self):
        with self.assertRaises((AttributeError, TypeError)):
            del sample()["W,6,"]

    def test_notes_that_make_no_plat(self):
        # Only the second half mile of N,1, closes: its first one may be 39.75 to 40.25 chains.
        for distances, number in (((39.7, 80), 21), ((40, 64.999), 22), ((40, 85.001), 23)):
            notes = sample()
            notes["N,1,"] = distances
            refused = self.refused(notes.plat)
            self.assertEqual((refused.number, refused.at, refused.source), (number, 0, "notes"))

    def test_closing_half_miles_at_their_limits(self):
        # A quarter mile of 5 chains, and one of 25 chains, after three of 20 chains.
        for corner, quarter in ((65, 5_000), (85, 25_000)):
            notes = sample()
            notes["N,1,"] = 40, corner
            self.assertEqual(notes.plat().closing_quarters[0], quarter)


class Values(unittest.TestCase):
    def test_equal(self):
        notes = sample()
        self.assertEqual(notes, sample())
        notes["W,6,"] = 40, 79
        self.assertNotEqual(notes, sample())
        notes["W,6,"] = 40, 80
        self.assertEqual(notes, sample())
        self.assertNotEqual(township.Notes("T. 3 N., R. 3 W."), sample())
        self.assertNotEqual(sample(), dict(sample()))

    def test_can_be_changed_and_so_have_no_hash(self):
        with self.assertRaises(TypeError):
            hash(sample())

    def test_copies_are_separate(self):
        notes = sample()
        for again in (copy.copy(notes), copy.deepcopy(notes), pickle.loads(pickle.dumps(notes))):
            self.assertEqual(again, notes)
            again["W,6,"] = 40, 79
            self.assertEqual(notes, sample())

    def test_shown(self):
        self.assertEqual(repr(sample()), "<township.Notes of T. 2 N., R. 3 W.>")


if __name__ == "__main__":
    unittest.main()
