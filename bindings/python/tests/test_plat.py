"""Plats: how they are made, the answers they give, and that they are values."""
import copy
import decimal
import os
import pickle
import unittest
from decimal import Decimal
from fractions import Fraction

import township
from samples import NOTES, TOP, even, uneven


class Answers(unittest.TestCase):
    # The figures are those of the documents, worked out there by hand.

    def test_acres(self):
        self.assertEqual(uneven().acres("sec. 5, lots 1 and 2, S1/2NE1/4."), Decimal("161.00"))
        self.assertEqual(even().acres("sec. 14, NE1/4NE1/4NE1/4NE1/4NE1/4."), Decimal("0.63"))

    def test_acres_have_two_places(self):
        self.assertEqual(str(even().acres("secs. 1 thru 36, all.")), "23040.00")

    def test_acres_whatever_the_decimal_context_is(self):
        with decimal.localcontext() as context:
            context.prec = 1
            context.traps[decimal.Inexact] = True
            self.assertEqual(str(uneven().acres("sec. 5, lots 1 and 2, S1/2NE1/4.")), "161.00")

    def test_accounts(self):
        lots = "sec. 7, lots 1 to 4, inclusive."
        self.assertEqual(uneven().acres(lots), Decimal("156.40"))
        self.assertEqual(uneven().acres(lots, account="exact"), Decimal("156.40"))
        self.assertEqual(uneven().acres(lots, account="plat"), Decimal("156.42"))

    def test_no_account(self):
        for account in ("", "Exact", "printed", None, 0):
            with self.subTest(account=account), self.assertRaises(ValueError):
                uneven().acres("sec. 14.", account=account)
        with self.assertRaises(ValueError):
            uneven().area("sec. 14.", account="printed")

    def test_area(self):
        # 20 chains by the mean of 20.2 and 20.25, over 10.
        self.assertEqual(uneven().area("sec. 5, lot 1."), Fraction(809, 20))
        self.assertEqual(even().area("sec. 36."), 640)

    def test_area_by_the_plat(self):
        self.assertEqual(uneven().area("sec. 7, lots 1 to 4.", account="plat"), Fraction(15642, 100))

    def test_normal(self):
        normal = uneven().normal("sec. 14, SE1/4, NE1/4, NW1/4.")
        self.assertEqual(normal, "T. 2 N., R. 3 W.,\nsec. 14, N1/2, SE1/4.\n")

    def test_normal_longer_than_its_first_room(self):
        # These are 16 squares of 2.5 acres in each of twenty sections, no two of which make up a larger part.
        quarters = ("NE1/4", "SW1/4")
        squares = [f"{a}{b}{c}{d}" for a in quarters for b in quarters for c in quarters for d in quarters]
        land = "; ".join(f"sec. {section}, {', '.join(squares)}" for section in (*range(8, 18), *range(20, 30)))
        normal = uneven().normal(land)
        self.assertGreater(len(normal), 4096)
        self.assertEqual(uneven().normal(normal), normal)

    def test_text_or_bytes(self):
        for description in ("sec. 14, S½NE¼.", "sec. 14, S½NE¼.".encode(), b"sec. 14, S1/2NE1/4."):
            with self.subTest(description=description):
                self.assertEqual(even().acres(description), 80)

    def test_neither_text_nor_bytes(self):
        for description in (None, 14, float("nan"), bytearray(b"sec. 14.")):
            with self.subTest(description=description), self.assertRaises(TypeError):
                even().acres(description)


class Written(unittest.TestCase):
    def test_notes_make_the_plat_again(self):
        for plat in (even(), uneven()):
            self.assertEqual(township.Plat.read(plat.write_notes()), plat)

    def test_notes_of_the_even_township(self):
        self.assertEqual(even().write_notes(), (TOP / "samples" / "b0.csv").read_text())


class Notes(unittest.TestCase):
    def test_none(self):
        self.assertEqual(uneven().notes("sec. 14, NE1/4, SE1/4."), [])

    def test_joined_parts(self):
        # A quarter of a quarter has 40 acres, and two quarters have 320.
        (note,) = uneven().notes("sec. 14, N½;\nsec. 15, NE¼ SE¼.")
        self.assertEqual((note.line, note.column), (2, 14))
        self.assertTrue(note.text.startswith("township: description:2:14: note: NE1/4 SE1/4 is read as one part"))
        self.assertTrue(note.sentence.startswith("NE1/4 SE1/4 is read as one part of 40.00 acres, the NE1/4 of"))
        self.assertTrue(note.sentence.endswith("write a comma after NE1/4 (320.00 acres)"))

    def test_several_places(self):
        (note,) = uneven().notes("sec. 14, NE1/4 SE1/4; sec. 15, W1/2 E1/2.")
        self.assertTrue(note.text.endswith("\n  1 more such place\n"))

    def test_refused(self):
        with self.assertRaises(township.Refused) as caught:
            uneven().notes("sec. 5, N1/2.")
        self.assertEqual((caught.exception.number, caught.exception.at), (66, 8))

    def test_notes_are_values(self):
        (note,) = uneven().notes("sec. 14, NE1/4 SE1/4.")
        self.assertEqual(pickle.loads(pickle.dumps(note)), note)
        self.assertEqual(uneven().notes("sec. 14, NE1/4 SE1/4."), [note])


class Printed(unittest.TestCase):
    def test_text(self):
        self.assertTrue(uneven().text.startswith("sec. 1: lot 1 40.00, "))
        self.assertTrue(uneven().text.endswith("sec. 36: total 640.00\ntownship total 23037.57\n"))

    def test_sections(self):
        sections = uneven().sections
        self.assertEqual(list(sections), list(range(1, 37)))
        self.assertEqual({number: section.number for number, section in sections.items()}, {n: n for n in sections})
        self.assertEqual(sections[14].lots, {})
        self.assertEqual(len(sections[6].lots), 7)
        self.assertEqual(sections[7].lots[3], Decimal("39.08"))
        self.assertEqual(sections[7].total, Decimal("636.40"))

    def test_each_printed_figure_is_that_of_its_land(self):
        for number, section in uneven().sections.items():
            self.assertEqual(section.total, uneven().acres(f"sec. {number}."))
            for lot, acres in section.lots.items():
                self.assertEqual(acres, uneven().acres(f"sec. {number}, lot {lot}."))

    def test_figures(self):
        figures = uneven().figures
        self.assertEqual(len(figures), 47)
        for (section, lot), acres in figures.items():
            self.assertEqual(acres, uneven().sections[section].lots[lot])
        # A lot table has the same keys.
        table = township.Lots.of_figures(uneven().township, figures)
        self.assertEqual(dict(table.figures), dict(figures))
        self.assertEqual(uneven().differences(table), [])

    def test_total(self):
        self.assertEqual(uneven().total, Decimal("23037.57"))

    def test_what_is_given_cannot_change_the_plat(self):
        with self.assertRaises(TypeError):
            uneven().sections[5] = None
        uneven().sections[5].lots.clear()
        self.assertEqual(len(uneven().sections[5].lots), 4)


class Parts(unittest.TestCase):
    QUARTERS = (20_000,) * 84

    def test_parts_of_a_plat_make_it(self):
        parts = uneven().township, uneven().closing_quarters
        self.assertEqual(parts[0], (2, "N", 3, "W"))
        self.assertEqual(township.Plat.of_parts(*parts), uneven())

    def test_made_by_names(self):
        made = township.Plat.of_parts(township=(2, "N", 3, "W"), closing_quarters=list(self.QUARTERS))
        self.assertEqual(made, even())

    def test_each_side(self):
        for north_south in "NS":
            for east_west in "EW":
                made = township.Plat.of_parts((99, north_south, 1, east_west), self.QUARTERS)
                self.assertEqual(str(made.township), f"T. 99 {north_south}., R. 1 {east_west}.")
                self.assertTrue(made.normal("sec. 14.").startswith(f"{made.township},\n"))

    def test_township_that_is_none(self):
        for where in ((0, "N", 3, "W"), (100, "N", 3, "W"), (2, "N", 0, "W"), (2, "N", 256 + 3, "W"),
                      (2, "E", 3, "W"), (2, "N", 3, "S"), (2, "n", 3, "W"), (2, "", 3, "W")):
            with self.subTest(where=where), self.assertRaises(ValueError):
                township.Plat.of_parts(where, self.QUARTERS)

    def test_quarters_that_are_no_plats(self):
        # Line 0 closes, and therefore has 5 to 25 chains; line 7 does not.
        for line, quarter in ((0, 4_999), (0, 25_001), (7, 19_999), (7, 20_001), (0, -1), (0, 2**32 + 20_000)):
            quarters = list(self.QUARTERS)
            quarters[line] = quarter
            with self.subTest(line=line, quarter=quarter), self.assertRaises(ValueError):
                township.Plat.of_parts((2, "N", 3, "W"), quarters)

    def test_quarters_at_their_limits(self):
        for quarter in (5_000, 25_000):
            made = township.Plat.of_parts((2, "N", 3, "W"), (quarter, *self.QUARTERS[1:]))
            self.assertEqual(made.closing_quarters[0], quarter)

    def test_wrong_number_of_quarters(self):
        for count in (0, 83, 85):
            with self.subTest(count=count), self.assertRaises(ValueError):
                township.Plat.of_parts((2, "N", 3, "W"), [20_000] * count)


class Opened(unittest.TestCase):
    def test_any_kind_of_name(self):
        path = TOP / "samples" / "b1.csv"
        for name in (path, str(path), os.fsencode(path)):
            self.assertEqual(township.Plat.open(name), uneven())

    def test_file_that_cannot_be_read(self):
        for name, error in (("none.csv", FileNotFoundError), (TOP, IsADirectoryError)):
            with self.subTest(name=name), self.assertRaises(error):
                township.Plat.open(name)


class Values(unittest.TestCase):
    def test_equal(self):
        again = township.Plat.read(NOTES)
        self.assertEqual(again, uneven())
        self.assertEqual(hash(again), hash(uneven()))
        self.assertEqual(len({again, uneven(), even()}), 2)

    def test_not_equal(self):
        self.assertNotEqual(uneven(), even())
        self.assertNotEqual(uneven(), uneven().text)

    def test_pickled(self):
        for protocol in range(pickle.HIGHEST_PROTOCOL + 1):
            again = pickle.loads(pickle.dumps(uneven(), protocol))
            self.assertEqual(again, uneven())
            self.assertEqual(again.acres("sec. 5, lot 1."), Decimal("40.45"))

    def test_pickle_holds_plain_data(self):
        made, (where, quarters) = uneven().__reduce__()
        self.assertIs(type(where), tuple)
        self.assertEqual(made(where, quarters), uneven())

    def test_copied(self):
        self.assertEqual(copy.copy(uneven()), uneven())
        self.assertEqual(copy.deepcopy(uneven()), uneven())

    def test_cannot_be_changed(self):
        for name in ("text", "sections", "township", "closing_quarters", "total", "other"):
            with self.subTest(name=name), self.assertRaises(AttributeError):
                setattr(uneven(), name, None)

    def test_is_not_made_bare(self):
        with self.assertRaises(TypeError):
            township.Plat()

    def test_figures_pickled(self):
        self.assertEqual(pickle.loads(pickle.dumps(uneven().sections[6])), uneven().sections[6])

    def test_shown(self):
        self.assertEqual(repr(uneven()), "<township.Plat of T. 2 N., R. 3 W.>")
