"""Properties of any land. The land is made by a seeded generator, the same in each run."""
import random
import unittest
from decimal import ROUND_HALF_UP, Decimal
from fractions import Fraction

import township
from samples import uneven

HALVES = ("N1/2", "S1/2", "E1/2", "W1/2")
QUARTERS = ("NE1/4", "NW1/4", "SE1/4", "SW1/4")
LANDS = 24


def parts_of(rng: random.Random, finer: int):
    """Parts that make up a section, or a quarter of it, without overlapping."""
    if finer == 0 or rng.random() < 0.3:
        return [""]
    if rng.random() < 0.3:
        return list(rng.choice((HALVES[:2], HALVES[2:])))
    return [part + quarter for quarter in QUARTERS for part in parts_of(rng, finer - 1)]


def land(rng: random.Random):
    """Items of a description that do not overlap, at least one: parts of a few sections, and lots."""
    items = []
    for section in rng.sample([*range(8, 18), *range(20, 30), *range(32, 37)], 3):
        parts = parts_of(rng, 3)
        kept = rng.sample(parts, rng.randint(1, len(parts)))
        items += [f"sec. {section}, {part or 'all'}" for part in kept]
    items += [f"sec. 6, lot {lot}" for lot in rng.sample(range(1, 8), rng.randint(0, 7))]
    rng.shuffle(items)
    return items


def rounded(area: Fraction) -> Decimal:
    """An area to hundredths, half up."""
    hundredths = (area.numerator * 200 + area.denominator) // (area.denominator * 2)
    return Decimal(hundredths).scaleb(-2)


class Lands(unittest.TestCase):
    @classmethod
    def setUpClass(cls):
        cls.lands = [land(random.Random(seed)) for seed in range(LANDS)]

    def test_acres_are_the_area_rounded(self):
        for items in self.lands:
            for account in ("exact", "plat"):
                description = "; ".join(items)
                area = uneven().area(description, account)
                self.assertEqual(uneven().acres(description, account), rounded(area))
                self.assertEqual(township.rounded(area), rounded(area))

    def test_areas_add_up(self):
        for items in self.lands:
            self.assertEqual(uneven().area("; ".join(items)), sum(map(uneven().area, items)))

    def test_land_has_one_text(self):
        for items in self.lands:
            normal = uneven().normal("; ".join(items))
            self.assertEqual(uneven().normal("; and ".join(reversed(items))), normal)
            self.assertEqual(uneven().normal(normal), normal)
            self.assertEqual(uneven().acres(normal), uneven().acres("; ".join(items)))

    def test_report_of_items(self):
        for items in self.lands:
            report = uneven().report((str(k), item) for k, item in enumerate(items))
            self.assertEqual([tract.acres for tract in report.tracts], list(uneven().acres_of(items)))
            self.assertEqual(report.total, uneven().acres("; ".join(items)))

    def test_many_are_each(self):
        descriptions = ["; ".join(items) for items in self.lands]
        self.assertEqual(list(uneven().acres_of(descriptions)), [uneven().acres(each) for each in descriptions])

    def test_text_and_its_bytes(self):
        for items in self.lands:
            description = "; ".join(items).replace("1/2", "½")
            self.assertEqual(uneven().area(description), uneven().area(description.encode()))

    def test_rounding_here_is_half_up(self):
        # The property above depends on this: 0.005 acres are 0.01.
        for hundredths in ("0.005", "0.0049", "39.175", "39.025"):
            exact = Decimal(hundredths)
            self.assertEqual(rounded(Fraction(exact)), exact.quantize(Decimal("0.01"), ROUND_HALF_UP))
            self.assertEqual(township.rounded(Fraction(exact)), rounded(Fraction(exact)))

    def test_rounding_of_whole_acres(self):
        self.assertEqual([str(township.rounded(acres)) for acres in (0, 640, Fraction(1))], ["0.00", "640.00", "1.00"])
