"""Each position of the uneven township, by interpolation between the lines of its section."""
import unittest
from fractions import Fraction

from samples import uneven

# In thousandths of a chain, a closing quarter is the corner less 40 and 20 chains: 80.20 - 60 = 20.20 between
# sections 4 and 5, and so on. Every other line ends with 20 chains.
CLOSING = {4: 20_200, 5: 20_400, 6: 20_800, 47: 19_200, 53: 19_600, 59: 19_500}

# The square thousandths of a chain in an acre, which is 10 square chains.
ACRE = 10_000_000


def closing(line):
    return CLOSING.get(line, 20_000)


def straight(start, end, along, distance):
    """A length that varies linearly along a line from one value to another, at a distance from its start."""
    return start + Fraction((end - start) * distance, along)


def ends(number, length):
    """The two ends of a quarter mile, by its number, on a line of this length."""
    return 20_000 * number, length if number == 3 else 20_000 * (number + 1)


def acres(tier, range_, column, row):
    """The acres of a position: its column from the east, its row from the south."""
    east = 7 * tier + range_
    north = 42 + 6 * tier + range_
    west, south = east + 1, north + 6
    upward = closing(west) + 60_000
    across = closing(north) + 60_000
    narrow, wide = (closing(south), closing(north)) if column == 3 else (20_000, 20_000)
    low, high = (closing(east), closing(west)) if row == 3 else (20_000, 20_000)
    width = sum(straight(narrow, wide, upward, at) for at in ends(row, upward)) / 2
    height = sum(straight(low, high, across, at) for at in ends(column, across)) / 2
    return width * height / ACRE


def number(tier, range_):
    """The number of a section. The numbers wind back and forth from the northeast corner."""
    return 6 * tier + (range_ if tier % 2 == 0 else 5 - range_) + 1


def part(tier, range_, column, row):
    """A lot in the northern row or the western column, or otherwise a quarter-quarter."""
    if tier == 0 and row == 3:
        return f"lot {column + 1}"
    if range_ == 5 and column == 3:
        return f"lot {(8 if tier == 0 else 5) - row - 1}"
    inner = ("N" if row % 2 else "S") + ("W" if column % 2 else "E")
    outer = ("N" if row > 1 else "S") + ("W" if column > 1 else "E")
    return f"{inner}1/4{outer}1/4"


class Positions(unittest.TestCase):
    def test_each_position(self):
        for tier in range(6):
            for range_ in range(6):
                for column in range(4):
                    for row in range(4):
                        text = f"sec. {number(tier, range_)}, {part(tier, range_, column, row)}."
                        with self.subTest(text):
                            self.assertEqual(uneven().area(text), acres(tier, range_, column, row))

    def test_a_position_by_hand(self):
        # The northwest position of section 6: widths of 19.303.. and 19.20, heights of 20.703.. and 20.80,
        # whose sums, times the lines of 80.80 and 79.20 chains, are 3,111,040,000 and 3,287,040,000.
        units = Fraction(3_111_040_000 * 3_287_040_000, 4 * 80_800 * 79_200)
        self.assertEqual(units, Fraction(10_226_112_921_600_000_000, 25_597_440_000))
        self.assertEqual(uneven().area("sec. 6, lot 4."), units / ACRE)


if __name__ == "__main__":
    unittest.main()
