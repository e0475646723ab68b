"""Drawings of plats: what they show, and where."""
import re
import subprocess
import sys
import unittest
import xml.etree.ElementTree as ET

import township
from batches import BatchCase
from drawings import CHECKERED, LARGEST, SIX_POINTS, SVG, sizes, texts, tract
from samples import TOP, RefusalCase, even, uneven
from township._drawing import svg_of
from township._drawing.layout import LINES, box_of, closing_of, line_of, lots_of
from township._drawing.markup import element, escaped
from township._drawing.of_plat import shade_of, subject_of
from township._drawing.places import boxes_of, outline_of, picture_of_township, strokes_of
from township._drawing.subject import Shade, Subject


class Township(RefusalCase):
    def test_sections_are_numbered_in_turns(self):
        # From the northeast corner to the west, then back: 7 is below 6, 12 below 1, and 36 is in the southeast corner.
        wanted = {1: (160, 0), 6: (0, 0), 7: (0, 32), 12: (160, 32), 13: (160, 64), 31: (0, 160), 36: (160, 160)}
        self.assertEqual({number: box_of(number)[:2] for number in wanted}, wanted)

    def test_every_section_and_lot_has_its_figures(self):
        shown = texts(uneven().svg())
        for number, section in uneven().sections.items():
            self.assertIn(f"{section.total:,.2f}", shown)
            for acres in section.lot_acres:
                self.assertIn(str(acres), shown)
        # 36 sections, and 47 lots: 4 in each of sections 1 to 5, 7, 18, 19, 30, and 31, and 7 in section 6.
        self.assertEqual(sum(len(list(lots_of(number))) for number in range(1, 37)), 47)
        self.assertEqual([each for each in shown if each == "36"], ["36"])

    def test_lots_of_section_6(self):
        # Lots 1 to 4 along the north from the east, then 5 to 7 along the west to the south.
        found = [(lot.number, box.x // 8, box.y // 8) for lot, box in lots_of(6)]
        self.assertEqual(found, [(1, 3, 0), (2, 2, 0), (3, 1, 0), (4, 0, 0), (5, 0, 1), (6, 0, 2), (7, 0, 3)])

    def test_closing_quarters(self):
        # In the sample, N,4,5 is 80.20 chains, N,5,6 is 80.40, and N,6, is 80.80: less 60, 20.20, 20.40, and 20.80.
        shown = texts(uneven().svg())
        for quarter in ("20.20", "20.40", "20.80"):
            self.assertEqual(shown.count(quarter), 1)
        # 7 lines close at the north boundary, and 7 at the west one.
        self.assertEqual(texts(even().svg()).count("20.00"), 14)

    def test_lines_have_the_indexes_of_the_field_notes(self):
        closing = [index for index in range(LINES) if line_of(index).closes]
        self.assertEqual(closing, [0, 1, 2, 3, 4, 5, 6, 47, 53, 59, 65, 71, 77, 83])
        self.assertEqual([closing_of(6, side).index for side in "NEW"], [47, 5, 6])
        self.assertEqual([closing_of(31, side) and closing_of(31, side).index for side in "NESW"], [77, None, 83, None])

    def test_title_block(self):
        shown = texts(uneven().svg(land="sec. 7, lots 1 to 4, inclusive."))
        for words in ("TOWNSHIP 2 NORTH, RANGE 3 WEST", "sec. 7, lots 1, 2, 3, 4.", "156.40", "156.42", "23,037.57"):
            self.assertIn(words, shown)
        self.assertTrue(any("Schematic, not to scale" in each for each in shown))

    def test_the_land_is_where_it_is(self):
        # The NE1/4 of section 14, the fifth from the west in the third row: 16 places at x = 4 * 32 + 16, y = 2 * 32.
        drawing = uneven().svg(land="sec. 14, NE1/4.")
        self.assertIn('d="m144 72h16" stroke-width="16"', drawing)

    def test_refusals(self):
        self.assertEqual(self.refused(uneven().svg, land="sec. 5, N1/2.").number, 66)
        with self.assertRaises(ValueError):
            uneven().svg(section=37)

    def test_notebooks_show_the_plat(self):
        self.assertEqual(uneven()._repr_svg_(), uneven().svg())

    def test_two_drawings_do_not_share_hatchings(self):
        names = [set(re.findall(r'id="([^"]+)"', even().svg(land=f"sec. {number}."))) for number in (14, 15)]
        self.assertFalse(names[0] & names[1])


class LandAlone(unittest.TestCase):
    def test_land_on_a_plat(self):
        description = "sec. 5, lots 1 and 2, S1/2NE1/4."
        self.assertEqual(uneven().svg(land=uneven().land(description)), uneven().svg(land=description))

    def test_notebooks_show_land(self):
        land = township.Land.of("T. 2 N., R. 3 W.", "sec. 14, NE1/4.")
        self.assertIn('d="m144 72h16" stroke-width="16"', land._repr_svg_())
        self.assertIn("sec. 14, NE1/4.", texts(land._repr_svg_()))
        # Without field notes there is no acreage: numbers with two decimal places.
        self.assertFalse([each for each in texts(land._repr_svg_()) if re.search(r"\.\d\d$", each)])

    def test_no_land(self):
        none = uneven().land("sec. 14.") - uneven().land("sec. 14.")
        self.assertEqual(ET.fromstring(uneven().svg(land=none)).tag, f"{SVG}svg")
        self.assertIn("0.00", texts(uneven().svg(land=none)))


class Legible(unittest.TestCase):
    def test_no_text_is_smaller_than_six_points(self):
        tracts = [tract("A", "sec. 14, N1/2."), tract("Heirs of Jeremiah Johnson", "sec. 6, lot 4.")]
        for section in (None, 5, 6, 14):
            for plat in (even(), uneven()):
                shade = shade_of(plat, plat.land("sec. 14, NE1/4; sec. 6, lots 1 to 7."), section=section)
                subject = subject_of(plat, shade)._replace(outlines=tracts)
                found = list(sizes(ET.fromstring(svg_of(subject, section))))
                self.assertGreater(len(found), 10)
                self.assertGreaterEqual(min(found), (SIX_POINTS, ""))

    def test_figures_fit_into_their_lots(self):
        lots = township.Lots.of_figures(even().township, {(5, 1): "140.45", (5, 2): "40.50"})
        drawing = ET.fromstring(svg_of(subject_of(even(), lots=lots)))
        long = {each.text: each for each in drawing.iter(f"{SVG}text")}["140.45"]
        # A lot is 8 places of 0.86 millimeters wide.
        self.assertLess(float(long.get("textLength")), 8 * 0.86)

    def test_a_screen_shows_the_township_and_the_figures_along_it(self):
        drawing = ET.fromstring(uneven().svg())
        x, y, width, height = map(float, drawing.get("data-view").split())
        [closing] = [each for each in drawing.iter(f"{SVG}g") if each.get("class") == "halo closing"]
        for each in closing:
            # A figure has up to 6 characters, each of which is 0.64 times as wide as high.
            share = 1.0 if each.get("text-anchor") == "end" else 0.5
            self.assertLess(x, float(each.get("x")) - share * 6 * 0.64 * 2.5)
            self.assertLess(y, float(each.get("y")) - 2.5)
        left, top, side = (190 - 192 * 0.86) / 2, 27, 192 * 0.86
        self.assertGreater(x + width, left + side)
        self.assertGreater(y + height, top + side)

    def test_the_basis_of_the_acreage(self):
        lots = township.Lots.of_figures(even().township, {(5, 1): "40.45"})
        for plat, table, words in (
            (uneven(), None, "Acreage by the field notes."),
            (even(), None, "Acreage of a nominal township, whose section lines are all regular."),
            (uneven(), lots, "Acreage by the lot table."),
        ):
            for section in (None, 14):
                drawing = svg_of(subject_of(plat, lots=table), section)
                self.assertIn(words, " ".join(texts(drawing)))
                self.assertEqual(ET.fromstring(drawing).get("data-basis"), words)


class LotTable(unittest.TestCase):
    FIGURES = {(5, 1): "40.45", (5, 2): "40.50", (5, 3): "40.55", (5, 4): "40.60", (6, 1): "41.00"}

    def test_returned_acreage_is_shown(self):
        lots = township.Lots.of_figures(even().township, self.FIGURES)
        shown = texts(svg_of(subject_of(even(), lots=lots)))
        for acres in self.FIGURES.values():
            self.assertEqual(shown.count(acres), 1)
        # Section 5: 40.45 + 40.50 + 40.55 + 40.60 = 162.10, and 12 quarter-quarter sections of 40 acres.
        self.assertEqual(shown.count("642.10"), 1)
        # Of the 36 sections, 11 have lots; the table has all lots of one of them.
        self.assertEqual(shown.count("640.00"), 25)
        self.assertNotIn("40.00", shown)
        self.assertNotIn("Township", shown)
        self.assertIn("Acreage by the lot table.", " ".join(shown))

    def test_in_a_section(self):
        lots = township.Lots.of_figures(even().township, self.FIGURES)
        shown = texts(svg_of(subject_of(even(), lots=lots), 6))
        self.assertEqual([each for each in shown if each.endswith(" acres")], ["41.00 acres"])
        self.assertEqual(len([each for each in shown if each.startswith("Lot ")]), 7)


class SectionAlone(unittest.TestCase):
    def test_lots_and_quarters(self):
        shown = texts(uneven().svg(section=5))
        self.assertEqual([each for each in shown if each.startswith("Lot ")], ["Lot 1", "Lot 2", "Lot 3", "Lot 4"])
        # 16 quarter-quarter sections, of which 4 are lots.
        self.assertEqual(len([each for each in shown if each.endswith("1/4")]), 12)
        self.assertIn("40.45 acres", shown)

    def test_the_smallest_place(self):
        drawing = uneven().svg(land="sec. 14, NE1/4NE1/4NE1/4NE1/4NE1/4.", section=14)
        self.assertIn('d="m31 0.5h1" stroke-width="1"', drawing)

    def test_closing_quarters(self):
        self.assertEqual([each for each in texts(uneven().svg(section=5)) if re.fullmatch(r"\d\d\.\d\d", each)], ["20.20", "20.40"])
        self.assertNotIn("20.00", texts(even().svg(section=14)))


class Forms(unittest.TestCase):
    def test_every_drawing_is_well_formed_and_small(self):
        for plat in (even(), uneven()):
            for section in (None, *range(1, 37)):
                drawing = plat.svg(land="sec. 14, NE1/4; sec. 6, lots 1 to 7.", section=section)
                self.assertEqual(ET.fromstring(drawing).tag, f"{SVG}svg")
                self.assertLess(len(drawing.encode()), LARGEST)

    def test_land_in_the_most_pieces(self):
        shade = Shade(CHECKERED, "Land", "sec. 14, all; " * 5_000)
        self.assertEqual(len(boxes_of(picture_of_township(CHECKERED))), 36 * 32 * 16)
        for section in (None, 14):
            drawing = svg_of(Subject(even().township, None, [shade, shade._replace(rows={})]), section, targets=True)
            self.assertLess(len(drawing.encode()), LARGEST)
            self.assertIn(".. (cut here)", drawing)

    def test_nothing_is_loaded_from_elsewhere(self):
        drawing = uneven().svg(land="sec. 14.")
        self.assertEqual(set(re.findall(r'https?://[^"]+', drawing)), {"http://www.w3.org/2000/svg"})
        # A strict content security policy allows no style attributes and no scripts.
        self.assertNotRegex(drawing, r"<script|<style| style=| on[a-z]+=")

    def test_names_of_land_fit_in_the_title_block(self):
        def names(label):
            shades = [Shade(even().land(f"sec. {section}.").rows, label, "") for section in (14, 15)]
            drawing = ET.fromstring(svg_of(subject_of(even(), *shades)))
            return [each for each in drawing.iter(f"{SVG}text") if each.get("font-weight") == "bold" and each.text[0] == "T"]

        # Each is at the left, where there is more room, and above its figures.
        for label in ("Tracts, some doubtful", "Tract A"):
            self.assertEqual([(each.text, each.get("textLength")) for each in names(label)], 4 * [(label, None)])
        label = "Tract The heirs of Jeremiah Johnson"
        self.assertEqual({(each.text, each.get("textLength")) for each in names(label)}, {
            (label, None), ("Tract The heirs of Jeremiah ..", "44")
        })
        for each in names("T" * 65):
            left, width = float(each.get("x")), float(each.get("textLength"))
            self.assertLessEqual(left + width, 129 if left < 129 else 178)
            self.assertTrue(each.text.endswith(" ..") and 10 < len(each.text) < 65)

    def test_the_title_block_ends_on_the_sheet(self):
        accounts = (("Exact account", 1), ("Plat account", 1), ("Lot table", 1))
        shades = [Shade({}, "Only in the second", "sec. 14, all; " * 40, accounts)] * 3
        for section in (None, 5):
            subject = subject_of(even(), *shades)
            lines = [each for each in ET.fromstring(svg_of(subject, section)).iter(f"{SVG}text") if "transform" not in each.attrib]
            # The last two lines of the sheet are notes below the block, whose bottom is at 246 of 255 millimeters.
            heights = sorted(float(each.get("y")) for each in lines)
            self.assertLess(heights[-3], 245.5)
            self.assertLess(heights[-1], 254)

    def test_texts_are_escaped(self):
        self.assertEqual(escaped("<script>&\u202e\x00"), "&lt;script&gt;&amp;\ufffd\ufffd")
        self.assertEqual(element("a", title='"<'), '<a title="&quot;&lt;"/>')
        drawing = svg_of(Subject(even().township, None, [Shade({14: [1] * 32}, "<b>&", "</text><script>")]))
        self.assertIn("</text><script>", texts(drawing))

    def test_shapes_of_land(self):
        # An L of three places: a column of two, and one beside its foot.
        picture = [0b01, 0b11]
        self.assertEqual([tuple(box) for box in boxes_of(picture)], [(0, 0, 1, 1), (0, 1, 2, 1)])
        self.assertEqual(list(strokes_of(boxes_of(picture))), [(1, "m0 0.5h1m-1 1h2")])
        self.assertEqual(outline_of(picture, 2), "M0 0h1M1 1h1M0 2h2M0 0v2M1 0v1M2 1v1")


class Command(BatchCase):
    def draw(self, *words, **named):
        return subprocess.run(
            [sys.executable, "-m", "township", "draw", *map(str, words)], capture_output=True, cwd=TOP, **named
        )

    def test_the_plat(self):
        run = self.draw("samples/b1.csv")
        self.assertEqual((run.returncode, run.stderr), (0, b""))
        self.assertEqual(run.stdout.decode(), uneven().svg())

    def test_land_in_a_section(self):
        run = self.draw("--section", "5", "samples/b1.csv", "samples/description.txt")
        self.assertEqual(run.stdout.decode(), uneven().svg(land="sec. 5, lot 1.", section=5))
        again = self.draw("samples/b1.csv", "-", "--section=5", input=b"sec. 5, lot 1.")
        self.assertEqual(again.stdout, run.stdout)

    def test_the_drawing_of_the_readme(self):
        run = self.draw("samples/b1.csv", "-", input=b"sec. 5, lots 1 and 2, S1/2NE1/4.")
        self.assertEqual(run.stdout, (TOP / "docs" / "plat.svg").read_bytes())

    def test_refusals(self):
        run = self.draw("samples/b1.csv", "-", input=b"sec. 5, N1/2.")
        self.assertEqual((run.returncode, run.stdout), (1, b""))
        self.assertTrue(run.stderr.startswith(b"township: description:1:9: this part includes lots"))
        run = self.draw("samples/tracts.csv")
        self.assertEqual((run.returncode, run.stdout), (1, b""))
        self.assertTrue(run.stderr.startswith(b"township: samples/tracts.csv:1:"))

    def test_misuse(self):
        for words in ((), ("--section", "37", "samples/b1.csv"), ("samples/b1.csv", "-", "more")):
            self.assertEqual(self.draw(*words).returncode, 2)
        self.assertEqual(self.draw("none.csv").returncode, 3)


if __name__ == "__main__":
    unittest.main()
