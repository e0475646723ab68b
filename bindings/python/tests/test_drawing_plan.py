"""Drawings of plats whose lots a lot table places: where the lots are, and land that is not there."""
import re
import sys
import unittest
import xml.etree.ElementTree as ET

import township
from batches import BatchCase
from drawings import LARGEST, SIX_POINTS, SVG, filled, sizes, texts
from samples import TOP, RefusalCase, even
from township import _library
from township._drawing import svg_of
from township._drawing.of_plat import subject_by, subject_of
from township._drawing.plan import plan_of
from township._lot_map import rows_by_mark

sys.path.insert(0, str(TOP / "tests" / "lots"))

from places import STANDARD, spelled  # noqa: E402

#: The township with the lake of docs/LOTS-FORMAT.md.
LAKE = """section,lot,acres,land
T,2,N,3,W,1912-03-04
5,1,40.45,NE1/4NE1/4
14,1,38.50,NE1/4NE1/4
14,2,12.25,N1/2NW1/4NE1/4
14,3,19.80,S1/2NW1/4NE1/4
14,4,71.10,"E1/2NW1/4"
14,,,NW1/4NW1/4
"""

GRAY = "Where it is gray, the plat has no land."

QUARTERS = ("NE", "NW", "SW", "SE")
#: The quarters of quarter-quarters of a section: 64 parts of 4 places on a side.
SIXTY_FOUR = [f"{one}1/4{two}1/4{three}1/4" for three in QUARTERS for two in QUARTERS for one in QUARTERS]
#: And their halves, of 2 by 4 places: of the first 32 of them.
HALVES = [f"{half}1/2{part}" for part in SIXTY_FOUR[:32] for half in "WE"]


def table(*records, date=""):
    """A lot table with these records."""
    return township.Lots.read("".join(f"{each}\n" for each in ("section,lot,acres,land", f"T,2,N,3,W{date}", *records)))


def drawn(lots, section=None, targets=False):
    """The drawing of a table, as an element."""
    return ET.fromstring(svg_of(subject_by(lots), section, targets))


def paths(drawing, kind):
    """The paths of the elements of a kind, or in groups of it."""
    found = [each for each in drawing.iter() if kind in each.get("class", "").split()]
    return [path.get("d") for each in found for path in each.iter(f"{SVG}path")]


def shown(drawing, kind):
    """The texts of the groups of a kind, as they are displayed on paper, each with its place in millimeters."""
    groups = [each for each in drawing.iter(f"{SVG}g") if kind in each.get("class", "").split()]
    return {
        each.text: (float(each.get("x")), float(each.get("y")))
        for group in groups
        for each in group
        if each.get("display") is None
    }


class OfTheSection(RefusalCase):
    def setUp(self):
        self.drawing = drawn(township.Lots.read(LAKE), 14)

    def test_each_lot_has_its_number_and_its_acreage_in_its_middle(self):
        # A place has 5 millimeters; the section begins at 15 and 31. Lot 1 is 8 by 8 places in the northeast corner,
        # lots 2 and 3 are the halves of the square west of it, and lot 4 is the 8 by 16 places west of these.
        middles = {"Lot 1": (28, 4), "Lot 2": (20, 2), "Lot 3": (20, 6), "Lot 4": (12, 8), "No land": (4, 4)}
        wanted = {words: (15 + 5 * x, 31 + 5 * y) for words, (x, y) in middles.items()}
        self.assertEqual(shown(self.drawing, "lot-names"), wanted)
        acres = {"38.50 acres": "Lot 1", "12.25 acres": "Lot 2", "19.80 acres": "Lot 3", "71.10 acres": "Lot 4"}
        self.assertEqual(shown(self.drawing, "lot-acres"), {each: wanted[lot] for each, lot in acres.items()})

    def test_the_sides_of_lots(self):
        # South of lots 1, 2, 3, and of the lake, and between 2 and 3; then east of 4, of 2 and 3, and of the lake.
        [sides] = paths(self.drawing, "lot-sides")
        found = sorted(re.findall(r"M(\d+) (\d+)([hv]\d+)", sides))
        self.assertEqual(found, sorted([("16", "4", "h8"), ("0", "8", "h8"), ("16", "8", "h16"), ("8", "16", "h8"),
                                        ("8", "0", "v16"), ("16", "0", "v16"), ("24", "0", "v8")]))

    def test_land_that_is_not_there(self):
        self.assertEqual(paths(self.drawing, "no-land-there"), ["M0 0h8v8h-8z"])
        self.assertIn(GRAY, " ".join(texts(ET.tostring(self.drawing))))

    def test_only_other_land_is_divided(self):
        names = [each for each in texts(ET.tostring(self.drawing)) if re.fullmatch("(?:[NS][EW]1/4){2}", each)]
        # 16 quarter-quarters, of which 1, 2 and 3, 4 and 4, and the lake take 5.
        self.assertEqual(len(names), 11)
        for taken in ("NE1/4NE1/4", "NW1/4NE1/4", "NE1/4NW1/4", "SE1/4NW1/4", "NW1/4NW1/4"):
            self.assertNotIn(taken, names)
        for step in (1, 2, 4, 8, 16):
            [lines] = paths(self.drawing, f"division-{step}")
            inside = set()
            for x, y, kind, length in re.findall(r"M(\d+) (\d+)([hv])(\d+)", lines):
                for each in range(int(length)):
                    x0, y0 = (int(x) + each, int(y)) if kind == "h" else (int(x), int(y) + each)
                    inside.add((x0, y0, kind))
            self.assertFalse([(x, y) for x, y, kind in inside if 8 <= x < 16 and y < 16 and (x, kind) != (8, "v")])
            self.assertTrue(inside)

    def test_figures(self):
        # 38.50 + 12.25 + 19.80 + 71.10 = 141.65, and 11 quarter-quarters of 40 acres.
        shown_texts = texts(ET.tostring(self.drawing))
        self.assertIn("581.65", shown_texts)
        self.assertIn("Acreage by the lot table of the plat approved on 1912-03-04.", " ".join(shown_texts))

    def test_a_lot_in_several_pieces_has_its_number_in_each(self):
        lots = table('14,1,52.00,"NE1/4NE1/4, W1/2SE1/4SE1/4"', '14,2,9.00,E1/2SE1/4SE1/4')
        names = shown(drawn(lots, 14), "lot-names")
        self.assertEqual(len(names), 2)
        found = [(each.text, each.get("x"), each.get("y")) for each in drawn(lots, 14).iter(f"{SVG}text")
                 if (each.text or "").startswith("Lot ")]
        # In the middle of 8 by 8 places in the northeast corner, and of the two halves in the southeast one.
        wanted = [("Lot 1", 28, 4), ("Lot 2", 30, 28), ("Lot 1", 26, 28)]
        self.assertEqual(sorted(found), sorted((name, str(15 + 5 * x), str(31 + 5 * y)) for name, x, y in wanted))

    def test_a_label_is_inside_its_lot(self):
        # The largest rectangle of this lot is the south half of the quarter-quarter: its middle is 6 rows down.
        lots = table('14,1,30.00,"NE1/4NE1/4NE1/4, S1/2NE1/4NE1/4"', "14,2,9.00,NW1/4NE1/4NE1/4")
        names = shown(drawn(lots, 14), "lot-names")
        self.assertEqual(names["Lot 1"], (15 + 5 * 28, 31 + 5 * 6))
        self.assertEqual(names["Lot 2"], (15 + 5 * 26, 31 + 5 * 2))

    def test_the_smallest_lots(self):
        smallest = [f"{one}1/4{two}1/4SE1/4SE1/4SE1/4" for two in QUARTERS for one in QUARTERS]
        rest = ["N1/2SE1/4SE1/4", "SW1/4SE1/4SE1/4"]
        lots = table(*(f"14,{number},0.62,{land}" for number, land in enumerate(smallest, 1)),
                     f'14,90,30.00,"{", ".join(rest)}"')
        drawing = drawn(lots, 14)
        names = [each for each in drawing.iter(f"{SVG}text") if (each.text or "").isdecimal()]
        self.assertEqual([each.text for each in names], [str(number) for number in range(1, 17)])
        figures = [each for each in drawing.iter(f"{SVG}text") if each.text == "0.62"]
        self.assertEqual(len(figures), 16)
        # Each is squeezed into its place of 5 millimeters.
        self.assertLess(max(float(each.get("textLength")) for each in figures), 5)
        self.assertGreaterEqual(min(sizes(drawing)), (SIX_POINTS, ""))


class OfTheTownship(unittest.TestCase):
    def setUp(self):
        self.drawing = drawn(township.Lots.read(LAKE))

    def test_lots(self):
        # Section 14 is the fifth from the west in the third row, of 32 places of 0.86 millimeters.
        left, top = (190 - 192 * 0.86) / 2 + 128 * 0.86, 27 + 64 * 0.86
        numbers = shown(self.drawing, "lot-numbers")
        for words, x, y in (("2", 20, 2), ("3", 20, 6), ("4", 12, 8)):
            for found, wanted in zip(numbers[words], (left + 0.86 * x, top + 0.86 * y)):
                self.assertAlmostEqual(found, wanted, 2)
        # Half a quarter-quarter has room for a number alone.
        self.assertEqual(set(shown(self.drawing, "lot-acres")), {"40.45", "38.50", "71.10"})
        self.assertIn("The acreage of small lots is on the sheets of their sections.",
                      " ".join(" ".join(texts(ET.tostring(self.drawing))).split()))

    def test_land_that_is_not_there(self):
        self.assertEqual(paths(self.drawing, "no-land-there"), ["M128 64h8v8h-8z"])
        words = " ".join(texts(ET.tostring(self.drawing)))
        self.assertIn(GRAY, words)
        self.assertIn("No land", words)

    def test_figures(self):
        # 35 sections of 640 acres, of which section 5 has 0.45 more, and section 14 has 581.65.
        self.assertIn("22,982.10", texts(ET.tostring(self.drawing)))

    def test_a_section_that_is_not_there(self):
        lots = table('14,,,"N1/2, S1/2"', "15,1,38.00,NE1/4NE1/4")
        shown_texts = texts(ET.tostring(drawn(lots)))
        # 34 sections of 640 acres, and 600 + 38.
        self.assertIn("22,398.00", shown_texts)
        self.assertIn("0.00", shown_texts)
        self.assertIn("0.00", texts(ET.tostring(drawn(lots, 14))))
        nothing = table(*(f'{number},,,"N1/2, S1/2"' for number in range(1, 37)))
        self.assertEqual(texts(ET.tostring(drawn(nothing))).count("0.00"), 37)

    def test_the_standard_lots_at_their_places(self):
        """A table that places the standard lots draws them where they are drawn without it."""
        records = [f"{section},{lot},40.{lot:02},{spelled(steps)}" for section, lots in STANDARD.items()
                   for lot, steps in lots.items()]
        placed = table(*records)
        plain = township.Lots.of_figures(placed.township, placed.figures)
        self.assertEqual((len(records), placed.has_land, plain.has_land), (47, True, False))
        for section in (None, 5, 6, 14, 31):
            found, wanted = (drawn(each, section) for each in (placed, plain))
            for kind in ("lot-numbers", "lot-names", "lot-acres", "aliquot-names"):
                self.assertEqual(shown(found, kind), shown(wanted, kind))

    def test_targets_are_the_land_of_lots(self):
        targets = {each.get("data-lot"): each for each in drawn(township.Lots.read(LAKE), targets=True).iter()
                   if each.get("data-lot")}
        self.assertEqual({name: each.get("data-acres") for name, each in targets.items()},
                         {"5.1": "40.45", "14.1": "38.50", "14.2": "12.25", "14.3": "19.80", "14.4": "71.10"})
        self.assertEqual(targets["14.4"].get("d"), "M136 64h8v16h-8z")
        alone = [each.get("d") for each in drawn(township.Lots.read(LAKE), 14, True).iter() if each.get("data-lot") == "14.4"]
        self.assertEqual(alone, ["M8 0h8v16h-8z"])


class Shapes(unittest.TestCase):
    def test_no_place_is_drawn_twice(self):
        """The outlines of lots, filled, are their places, and no two share one."""
        lots = table('14,1,30.00,"NE1/4NE1/4NE1/4, S1/2NE1/4NE1/4"', "14,2,9.00,NW1/4NE1/4NE1/4", "14,9,80.00,W1/2SW1/4")
        pictures = [filled(each.get("d"), 32, 32) for each in drawn(lots, 14, True).iter() if each.get("data-lot")]
        counts = [sum(bin(row).count("1") for row in picture) for picture in pictures]
        # A quarter-quarter has 64 places.
        self.assertEqual(counts, [48, 16, 128])
        for one, other in ((0, 1), (0, 2), (1, 2)):
            self.assertFalse(any(first & second for first, second in zip(pictures[one], pictures[other])))

    def test_the_bytes_of_a_table(self):
        """A struct that is filled by hand: 16 bytes for a section, and 64 for a quarter-quarter that is divided."""
        parts = _library.Lots(mapped=1)
        # By row from the south, and in a row from the east: the NE1/4NE1/4 is byte 12, and the SW1/4SW1/4 is byte 3.
        parts.positions[16 * 13 + 12] = 7
        parts.positions[16 * 13 + 3] = 100
        parts.positions[16 * 13 + 0] = 102
        # The southeast place of the second divided one is in lot 8, and the northwest one is not there.
        parts.divided[64 + 0], parts.divided[64 + 63] = 8, 100
        rows = rows_by_mark(parts, 14)
        self.assertEqual(set(rows), {7, 8, 100})
        self.assertEqual(rows[7], [0] * 24 + [0xFF] * 8)
        self.assertEqual(rows[8], [1] + [0] * 31)
        self.assertEqual(rows[100], [0xFF << 24] * 7 + [0xFF << 24 | 0x80] + [0] * 24)
        self.assertEqual(rows_by_mark(parts, 13), {})
        plan = plan_of(parts).sections[14]
        self.assertEqual([lot.number for lot in plan.lots], [7, 8])
        # In pictures, rows are from the north, and bits from the west: lot 7 is in the northeast corner.
        self.assertEqual(plan.lots[14, 7], [0xFF << 24] * 8 + [0] * 24)
        self.assertEqual(plan.lots[14, 8], [0] * 31 + [1 << 31])
        self.assertEqual(plan.no_land, [0] * 24 + [0xFF | 1 << 24] + [0xFF] * 7)
        self.assertEqual(sum(bin(row).count("1") for row in plan.free), 1024 - 64 - 1 - 65)

    def test_the_plan_is_of_lots_with_land_alone(self):
        self.assertIsNone(plan_of(township.Lots.new("T. 2 N., R. 3 W.")._parts))
        plan = plan_of(township.Lots.read(LAKE)._parts)
        self.assertEqual(len(plan.lots()), 5)
        self.assertIs(plan_of(township.Lots.read(LAKE)._parts), plan)

    def test_the_largest_drawings(self):
        # The most lots: 64 in each of 16 sections, 8 in each of 8 quarter-quarters.
        records = [f"{section},{number},9.99,{land}" for section in range(1, 17) for number, land in enumerate(HALVES, 1)]
        most = table(*records)
        self.assertEqual(len(most.figures), 1024)
        # Two lots of single places in turn: as many as a table has room for.
        places = [f"{one}1/4{two}1/4{three}1/4SE1/4SE1/4" for one in QUARTERS for two in QUARTERS for three in QUARTERS]
        halves = [", ".join(each for each in places if (each[:2] in ("NE", "SW")) == first) for first in (True, False)]
        checkered = table(*(f'{section},{lot},9.99,"{land}"' for section in range(1, 33) for lot, land in enumerate(halves, 1)))
        self.assertEqual(len(checkered.figures), 64)
        for lots in (most, checkered):
            for section in (None, 1):
                drawing = svg_of(subject_by(lots), section, targets=True)
                self.assertLess(len(drawing.encode()), LARGEST)


class Lands(RefusalCase):
    def test_the_methods_of_a_table(self):
        lots = township.Lots.read(LAKE)
        for section in (None, 14):
            self.assertEqual(lots.svg(section=section), svg_of(subject_by(lots), section))
        self.assertEqual(lots._repr_svg_(), lots.svg())
        self.assertEqual(lots.svg("sec. 14, lot 2."), lots.svg(lots.land("sec. 14, lot 2.")))
        with self.assertRaises(ValueError):
            lots.svg(section=37)

    def test_shaded_land(self):
        lots = township.Lots.read(LAKE)
        found = texts(lots.svg("sec. 14, lots 2 and 4, S1/2NE1/4; sec. 5.", 14))
        # 12.25 + 71.10 + 80 acres.
        for words in ("Land in section 14", "163.35", "Lot table"):
            self.assertIn(words, found)
        self.assertIn("sec. 14, lots 2, 4, S1/2NE1/4. There is more in 1 other section.", " ".join(found))
        self.assertEqual(self.refused(lots.svg, "sec. 14, NW1/4NW1/4.").number, 68)
        self.assertEqual(self.refused(lots.svg, "sec. 14, NE1/4.").number, 66)

    def test_land_alone(self):
        drawing = township.Lots.read(LAKE).land("sec. 14, lot 4.")._repr_svg_()
        self.assertIn("sec. 14, lot 4.", texts(drawing))
        self.assertIn(GRAY, " ".join(texts(drawing)))
        self.assertIn('d="m136 72h8" stroke-width="16"', drawing)
        # There is no acreage: numbers with two decimal places.
        self.assertFalse([each for each in texts(drawing) if re.search(r"\.\d\d$", each)])

    def test_a_standard_table_is_drawn_as_ever(self):
        lots = township.Lots.of_figures(even().township, {(5, 1): "40.45"})
        for section in (None, 5, 14):
            self.assertEqual(lots.svg(section=section), svg_of(subject_of(even(), lots=lots, is_measured=False), section))


class Command(BatchCase):
    def test_a_table(self):
        file = self.put(LAKE, "lake.csv")
        run = self.run_words("draw", "--lots", file)
        self.assertEqual((run.returncode, run.stdout.decode(), run.stderr), (0, township.Lots.read(LAKE).svg(), b""))
        run = self.run_words("draw", "--lots", file, "--section", "14", "-", input=b"sec. 14, lots 1 to 3.")
        wanted = township.Lots.read(LAKE).svg("sec. 14, lots 1 to 3.", 14)
        self.assertEqual((run.returncode, run.stdout.decode()), (0, wanted))

    def test_refusals(self):
        file = self.put(LAKE, "lake.csv")
        run = self.run_words("draw", "--lots", file, "-", input=b"sec. 14, lot 5.")
        self.assertEqual((run.returncode, run.stdout), (1, b""))
        self.assertTrue(run.stderr.startswith(b"township: description:1:14: "), run.stderr)
        run = self.run_words("draw", "--lots", self.put(LAKE.replace("E1/2NW1/4", "E1/2"), "bad.csv"))
        self.assertEqual((run.returncode, run.stdout), (1, b""))
        self.assertIn(b"bad.csv:7: ", run.stderr)

    def test_misuse(self):
        file = self.put(LAKE, "lake.csv")
        for words, said in (
            ((), b"name the field notes"),
            (("--lots", file, "-", "more"), b"name one description"),
            (("a", "b", "c"), b"at most one description"),
        ):
            run = self.run_words("draw", *words)
            self.assertEqual((run.returncode, run.stdout), (2, b""))
            self.assertIn(said, run.stderr)


if __name__ == "__main__":
    unittest.main()
