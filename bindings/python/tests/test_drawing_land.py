"""Drawings of small land and of tracts: their outlines, hatchings, and names, and what can be clicked."""
import random
import re
import unittest
import xml.etree.ElementTree as ET

from drawings import CHECKERED, LARGEST, SVG, filled, scale_of, texts, tract
from samples import even, uneven
from township._drawing import svg_of
from township._drawing.hatching import pieces_by_size
from township._drawing.of_plat import subject_of
from township._drawing.pieces import loops_of, pieces_of
from township._drawing.places import boxes_of, picture_of_township
from township._drawing.subject import Outline
from township._drawing.tracts_drawn import size_of


class SmallLand(unittest.TestCase):
    def shapes(self, description, section=None):
        """The shapes of the land in a drawing, with the width of a place in millimeters, and the hatchings by name."""
        drawing = ET.fromstring(even().svg(land=description, section=section))
        [land] = [each for each in drawing.iter(f"{SVG}g") if each.get("class") == "land"]
        patterns = {each.get("id"): each for each in drawing.iter(f"{SVG}pattern")}
        return land, scale_of(land), patterns

    def test_the_smallest_place_is_hatched(self):
        for description in ("sec. 14, NE1/4NE1/4NE1/4NE1/4NE1/4.", "sec. 14, NE1/4NE1/4NE1/4NE1/4."):
            land, place, patterns = self.shapes(description)
            [group] = land
            pattern = patterns[group.get("stroke")[5:-1]]
            scale = float(re.search(r"scale\(([\d.]+)\)", pattern.get("patternTransform"))[1])
            # At least two lines cross a place; together with the outline, they leave most of it open.
            spacing = scale * float(pattern.get("width")) * place
            self.assertLess(spacing, place / 2)
            [line] = pattern.findall(f"{SVG}path")
            self.assertLess(float(line.get("stroke-width")) / float(pattern.get("width")), 0.25)
            [outline] = [each for each in group if "outline" in each.get("class", "")]
            self.assertLess(float(outline.get("stroke-width")), 0.2)
            [ring] = [each for each in group if each.get("class") == "ring"]
            self.assertEqual(ring.get("fill"), None)

    def test_large_land_is_hatched_as_ever(self):
        land, _, patterns = self.shapes("sec. 14, NE1/4NE1/4.")
        [group] = land
        self.assertFalse(group.get("stroke").endswith("-fine)"))
        self.assertFalse([name for name in patterns if name.endswith("-fine")])

    def test_pieces_of_both_sizes(self):
        land, _, _ = self.shapes("sec. 14, NE1/4NE1/4; sec. 20, NE1/4NE1/4NE1/4NE1/4NE1/4.")
        self.assertEqual([group.get("stroke").endswith("-fine)") for group in land], [False, True])
        # The outline of each group is that of its own land: 8 places, and 1.
        paths = [[each.get("d") for each in group if "outline" in each.get("class", "")] for group in land]
        self.assertEqual(paths, [["M152 64h8M152 72h8M152 64v8M160 64v8"], ["M63 96h1M63 97h1M63 96v1M64 96v1"]])

    def test_a_section_alone(self):
        land, _, _ = self.shapes("sec. 14, NE1/4NE1/4NE1/4NE1/4NE1/4.", section=14)
        self.assertFalse(land[0].get("stroke").endswith("-fine)"))

    def test_land_in_many_pieces_is_small(self):
        pieces = pieces_by_size(picture_of_township(CHECKERED), 0.86)
        self.assertEqual((pieces.large, len(pieces.small[0])), ([], 36 * 32 * 16))

    def test_pieces(self):
        # Two rectangles with a side in common, and one that meets them only at a corner.
        boxes = boxes_of([0b0011, 0b0110, 0b1000])
        self.assertEqual([len(each) for each in pieces_of(boxes)], [2, 1])

    def test_loops_are_outlines(self):
        chance = random.Random(67)
        for _ in range(500):
            width, height = chance.randint(1, 7), chance.randint(1, 7)
            picture = [chance.getrandbits(width) for _ in range(height)]
            self.assertEqual(filled(loops_of(picture), width, height), picture)
        # The hole of a ring, and the same rows farther down.
        self.assertEqual(loops_of([0b111, 0b101, 0b111], 4), "M0 4h3v3h-3zM2 5h-1v1h1z")


class Tracts(unittest.TestCase):
    TRACTS = (
        ("A", "sec. 14, N1/2."),
        ("B", "sec. 14, E1/2."),
        ("C", "sec. 5, lots 1 and 2, S1/2NE1/4."),
        ("Heirs of Jeremiah Johnson", "sec. 28, NE1/4NE1/4."),
        ("E", "sec. 6, lot 4."),
        ("F", "sec. 20, NE1/4NE1/4NE1/4NE1/4NE1/4."),
        ("G", "secs. 10 and 11."),
    )

    def drawing(self, tracts=TRACTS, section=None):
        outlines = [tract(name, words, index, "40.00") for index, (name, words) in enumerate(tracts)]
        return ET.fromstring(svg_of(subject_of(even())._replace(outlines=outlines), section))

    def in_group(self, drawing, kind):
        return [each for group in drawing.iter(f"{SVG}g") if kind in group.get("class", "").split() for each in group]

    def test_each_tract_has_its_outline_and_its_name(self):
        drawing = self.drawing()
        paths = self.in_group(drawing, "outlines")
        self.assertEqual([each.get("data-name") for each in paths], [name for name, _ in self.TRACTS])
        self.assertEqual([each.get("data-tract") for each in paths], list("0123456"))
        self.assertEqual({each.get("data-acres") for each in paths}, {"40.00"})
        # The north half of section 14, at 4 * 32 and 2 * 32 places from the northwest corner, and sections 10 and 11.
        self.assertEqual(paths[0].get("d"), "M128 64h32v16h-32z")
        self.assertEqual(paths[6].get("d"), "M96 32h64v32h-64z")
        names = self.in_group(drawing, "names")
        self.assertEqual([each.text for each in names], ["A", "B", "C", "Heirs of Jeremiah ..", "E", "F", "G"])
        self.assertEqual([each.get("display") for each in names], [None] * 7)

    def test_names_keep_clear_of_each_other_and_of_figures(self):
        names = self.in_group(self.drawing(), "names")
        boxes = []
        for each in names:
            width, height = size_of(each.text, 0.86)
            share = {"start": 0.0, None: 0.5, "end": 1.0}[each.get("text-anchor")]
            x, y = float(each.get("x")) - share * width, float(each.get("y")) - height / 2
            boxes.append((x, y, x + width, y + height))
        # The number and the acreage of section 14: 10 places around its middle. Of lot 4 of section 6: 5 rows.
        boxes += [(4 * 32 + 11, 2 * 32 + 13, 4 * 32 + 21, 2 * 32 + 23), (0, 0, 8, 5)]
        for place, one in enumerate(boxes):
            for other in boxes[:place]:
                apart = one[0] >= other[2] or other[0] >= one[2] or one[1] >= other[3] or other[1] >= one[3]
                self.assertTrue(apart, (one, other))

    def test_names_are_in_their_land_if_they_fit(self):
        names = {each.text: each for each in self.in_group(self.drawing(), "names")}
        # Lot 4 of section 6 is the northwest corner, and tract G is in rows 32 to 64 and columns 96 to 160.
        self.assertTrue(0 < float(names["E"].get("x")) < 8 and 5 < float(names["E"].get("y")) < 8)
        self.assertTrue(96 < float(names["G"].get("x")) < 160 and 32 < float(names["G"].get("y")) < 64)
        # The north half and the east half of section 14 have the names in what is theirs alone.
        self.assertTrue(128 < float(names["A"].get("x")) < 144 and 64 < float(names["A"].get("y")) < 80)
        self.assertTrue(144 < float(names["B"].get("x")) < 160 and 80 < float(names["B"].get("y")) < 96)
        # The name of tract F, which is one place, ends beside it.
        self.assertTrue(60 < float(names["F"].get("x")) < 63 and names["F"].get("text-anchor") == "end")

    def test_a_name_without_room_is_not_displayed_on_paper(self):
        names = self.in_group(self.drawing([("First", "sec. 6, lot 4."), ("Second", "sec. 6, lot 4.")] * 20), "names")
        displayed = [each for each in names if each.get("display") is None]
        self.assertEqual(len(names), 40)
        self.assertTrue(1 <= len(displayed) < 40)

    def test_a_section_alone(self):
        drawing = self.drawing(section=14)
        self.assertEqual([each.get("data-name") for each in self.in_group(drawing, "outlines")], ["A", "B"])

    def test_the_most_tracts(self):
        rows = {number: tuple(0x55555555 << row % 2 for row in range(32)) for number in range(8, 12)}
        outlines = [Outline(rows, f"Tract {index}", None, index) for index in range(1000)]
        drawing = svg_of(subject_of(even())._replace(outlines=outlines), None, targets=True)
        self.assertLess(len(drawing.encode()), LARGEST)
        drawn = len(self.in_group(ET.fromstring(drawing), "outlines"))
        self.assertTrue(0 < drawn < 1000)
        self.assertIn(f"{1000 - drawn} tracts are not outlined.", " ".join(texts(drawing)))


class Targets(unittest.TestCase):
    def targets(self, section=None):
        drawing = ET.fromstring(svg_of(subject_of(uneven()), section, targets=True))
        [group] = [each for each in drawing.iter(f"{SVG}g") if each.get("class") == "targets"]
        return list(group)

    def box(self, target):
        x, y, width, height = (float(target.get(name)) for name in ("x", "y", "width", "height"))
        return x, y, x + width, y + height

    def test_land_has_its_acreage(self):
        acres = {each.get("data-section") or each.get("data-lot"): each.get("data-acres") for each in self.targets()}
        self.assertEqual((acres["7"], acres["7.4"], acres["36"]), ("636.40", "39.03", "640.00"))
        self.assertEqual(len(self.targets()), 36 + 47 + 84)
        acres = {each.get("data-section") or each.get("data-lot"): each.get("data-acres") for each in self.targets(7)}
        self.assertEqual(acres, {"7": "636.40", "7.1": "39.18", "7.2": "39.13", "7.3": "39.08", "7.4": "39.03"})

    def test_lines_leave_lots_alone(self):
        lots = [self.box(each) for each in self.targets() if each.get("data-lot")]
        for line in (self.box(each) for each in self.targets() if each.get("data-line")):
            for lot in lots:
                apart = line[0] >= lot[2] or lot[0] >= line[2] or line[1] >= lot[3] or lot[1] >= line[3]
                self.assertTrue(apart, (line, lot))


if __name__ == "__main__":
    unittest.main()
